//! The grading by the largest amount found.
use mubdrax::ReadingRecord;

const MEASURED: u32 = 0;
const BELOW: u32 = 1;
const MISSING: u32 = 2;

const LIMITS: [f64; 7] = [10.0, 50.0, 100.0, 500.0, 1_000.0, 5_000.0, 10_000.0];

/// Whether a survey may take this reading.
pub fn admits(reading: &ReadingRecord) -> bool {
    match reading.kind {
        MEASURED | BELOW => (0.0..=1_000_000.0).contains(&reading.amount),
        MISSING => true,
        _ => false,
    }
}

/// What a reading that stands in a record counts as.
fn counted(reading: &ReadingRecord) -> f64 {
    if reading.kind == MEASURED && !reading.amount.is_nan() { reading.amount } else { 0.0 }
}

/// How many limits the largest of the four counted values reaches.
pub fn class(readings: [&ReadingRecord; 4]) -> usize {
    let largest = readings.into_iter().map(counted).fold(f64::NEG_INFINITY, f64::max);
    LIMITS.iter().filter(|&&limit| largest >= limit).count()
}

/// The reading that a tag and a value of a survey word stand for.
pub fn decode(tag: u32, value: u32) -> Option<ReadingRecord> {
    match (tag, value) {
        (0, _) => Some(ReadingRecord { kind: MEASURED, amount: f64::from(value) / 4.0 }),
        (1, _) => Some(ReadingRecord { kind: BELOW, amount: f64::from(value) / 4.0 }),
        (2, 0) => Some(ReadingRecord { kind: MISSING, amount: 0.0 }),
        _ => None,
    }
}
