//! The exported functions, as `mubdrax.h` declares them. A slice crosses as a pointer and then a length.
use crate::record::{Counts, PointRecord, ReadingRecord, Statement, TetRecord};
use crate::refusal::Refusal;

/// Refusal 0 is no refusal.
#[repr(C)]
#[derive(Clone, Copy)]
pub(crate) struct Answer {
    refusal: u32,
    value: u32,
}

impl Answer {
    /// The value of an accepted call. Numbers of points and of records have 16 bits.
    pub(crate) fn into_result(self) -> Result<u16, Refusal> {
        let value = self.value as u16;
        match self.refusal {
            0 => Ok(value),
            number => Err(Refusal { number, point: (number == 12).then_some(value) }),
        }
    }
}

/// Status 0: a statement; 1: a refusal's line; 2: no room; 3: no memory.
#[repr(C)]
#[derive(Clone, Copy)]
pub(crate) struct TextAnswer {
    pub(crate) status: u32,
    pub(crate) length: usize,
}

unsafe extern "C" {
    pub(crate) fn mubdrax_create(
        counts: *mut Counts,
        points: *mut PointRecord,
        point_records: usize,
        readings: *mut ReadingRecord,
        reading_records: usize,
        tets: *mut TetRecord,
        tet_records: usize,
    ) -> Answer;

    pub(crate) fn mubdrax_add(
        counts: *mut Counts,
        points: *mut PointRecord,
        point_records: usize,
        readings: *mut ReadingRecord,
        reading_records: usize,
        tets: *mut TetRecord,
        tet_records: usize,
        x: u16,
        y: u16,
        z: u16,
        penalty: u32,
        reading: ReadingRecord,
    ) -> Answer;

    pub(crate) fn mubdrax_locate(
        counts: *const Counts,
        points: *const PointRecord,
        point_records: usize,
        readings: *const ReadingRecord,
        reading_records: usize,
        tets: *const TetRecord,
        tet_records: usize,
        x: u16,
        y: u16,
        z: u16,
    ) -> Answer;

    pub(crate) fn mubdrax_state(
        counts: *const Counts,
        points: *const PointRecord,
        point_records: usize,
        readings: *const ReadingRecord,
        reading_records: usize,
        tets: *const TetRecord,
        tet_records: usize,
        statement: *mut Statement,
    ) -> Answer;

    pub(crate) fn mubdrax_report(file: *const u8, file_bytes: usize, room: *mut u8, room_bytes: usize) -> TextAnswer;
}
