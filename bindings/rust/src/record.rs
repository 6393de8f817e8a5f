//! What the tables hold, laid out as the library reads it.

/// Written as a neighbour where a face has no record across it.
pub const NONE: u16 = 65_535;

/// One record of the point table.
#[repr(C)]
#[derive(Clone, Copy, Debug, Default, PartialEq, Eq)]
pub struct PointRecord {
    pub x: u16,
    pub y: u16,
    pub z: u16,
    pub penalty: u32,
    pub mark: u16,
}

/// One record of the tetrahedron table: neighbour `i` is the record across the face that lacks point `i`.
#[repr(C)]
#[derive(Clone, Copy, Debug, Default, PartialEq, Eq)]
pub struct TetRecord {
    pub points: [u16; 4],
    pub neighbours: [u16; 4],
    pub mark: u16,
}

/// One record of the reading table: kind 0 is measured, 1 below, 2 missing. No other kind is admitted; one that stands
/// in a table counts as missing.
#[repr(C)]
#[derive(Clone, Copy, Debug, Default, PartialEq)]
pub struct ReadingRecord {
    pub kind: u32,
    pub amount: f64,
}

/// What the laboratory says of one sample, in milligrams per kilogram.
#[derive(Clone, Copy, Debug, PartialEq)]
pub enum Reading {
    Measured(f64),
    Below(f64),
    Missing,
}

impl From<Reading> for ReadingRecord {
    fn from(reading: Reading) -> ReadingRecord {
        match reading {
            Reading::Measured(amount) => ReadingRecord { kind: 0, amount },
            Reading::Below(amount) => ReadingRecord { kind: 1, amount },
            Reading::Missing => ReadingRecord { kind: 2, amount: 0.0 },
        }
    }
}

/// How many records of each table a survey uses, and how many there were at creation.
#[repr(C)]
#[derive(Clone, Copy, Debug, Default, PartialEq, Eq)]
pub struct Counts {
    pub points: usize,
    pub tets: usize,
    pub point_records: usize,
    pub tet_records: usize,
}

/// A line of a statement: how many tetrahedra of one class there are, and their Sides added up.
#[repr(C)]
#[derive(Clone, Copy, Debug, Default, PartialEq, Eq)]
pub struct Line {
    pub tetrahedra: u32,
    pub units: i64,
}

/// A line for each class, and the Sides of the tetrahedra with a corner added up.
#[repr(C)]
#[derive(Clone, Copy, Debug, Default, PartialEq, Eq)]
pub struct Statement {
    pub lines: [Line; 8],
    pub margin: i64,
}
