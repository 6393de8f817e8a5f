//! What the program prints of a survey file.
use crate::ffi::{self, TextAnswer};

/// Enough for the statements and refusals of the program's tables.
const USUAL_ROOM: usize = 512;

const STATEMENT: u32 = 0;
const REFUSAL: u32 = 1;
const NO_ROOM: u32 = 2;

/// Why there is no statement.
#[derive(Clone, Debug, PartialEq, Eq)]
pub enum NoStatement {
    /// The file is refused, with this line.
    Refused(String),
    /// Memory ran out.
    NoMemory,
}

/// The text of the statement of a file, or why there is none.
pub fn report(file: &[u8]) -> Result<String, NoStatement> {
    let mut room = vec![0; USUAL_ROOM];
    let mut answer = write(file, &mut room);
    if answer.status == NO_ROOM {
        room.resize(answer.length, 0);
        answer = write(file, &mut room);
    }
    room.truncate(answer.length);
    let text = String::from_utf8_lossy(&room).into_owned();
    match answer.status {
        STATEMENT => Ok(text),
        REFUSAL => Err(NoStatement::Refused(text)),
        _ => Err(NoStatement::NoMemory),
    }
}

fn write(file: &[u8], room: &mut [u8]) -> TextAnswer {
    // Each slice is passed with its own length.
    unsafe { ffi::mubdrax_report(file.as_ptr(), file.len(), room.as_mut_ptr(), room.len()) }
}
