//! What the program prints of a file.
use super::survey::Survey;
use super::words::{Layer, Reader};
use mubdrax::{PointRecord, ReadingRecord, Statement, TetRecord};
use std::fmt::Write;

/// The statement's text, or the line of the refusal.
pub fn report(file: &[u8]) -> Result<String, String> {
    let mut points = vec![PointRecord::default(); 256];
    let mut readings = vec![ReadingRecord::default(); 256];
    let mut tets = vec![TetRecord::default(); 2048];
    let mut survey = Survey::create(&mut points, &mut readings, &mut tets).expect("tables of these sizes are accepted");
    let mut reader = Reader::new(file);
    let read = reader.read(|site| match survey.add(&mut points, &mut readings, &mut tets, site) {
        Ok(_) => Ok(()),
        Err(refusal) => Err(refusal.number),
    });
    let label = reader.label.map_or("-".into(), String::from_utf8_lossy);
    read.map_err(|fault| {
        let layer = match fault.layer {
            Layer::Words => "words",
            Layer::Grading => "grading",
            Layer::Survey => "survey",
        };
        format!("refused {} word {} layer {layer} label {label}\n", fault.number, fault.word)
    })?;
    let mut statement = Statement::default();
    survey.state(&points, &readings, &tets, &mut statement).expect("a survey's own tables are whole");
    Ok(text(&statement))
}

fn text(statement: &Statement) -> String {
    let mut text = String::new();
    for (class, line) in statement.lines.iter().enumerate() {
        writeln!(text, "{class} {} {}", line.tetrahedra, line.units).expect("a string takes all text");
    }
    writeln!(text, "margin {}", statement.margin).expect("a string takes all text");
    text
}
