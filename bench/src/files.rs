//! Compares what both libraries print of survey files, whole ones and damaged ones.
use crate::compare::Tally;
use crate::inputs::{Layout, Random, damage, file, sites};
use crate::plain;
use mubdrax::NoStatement;

/// Compares so many files.
pub fn files(count: usize, tally: &mut Tally) {
    let mut random = Random::new(3);
    for index in 0..count {
        let layout = [Layout::Random, Layout::Grid, Layout::Crowded][index % 3];
        let most = if index % 100 == 0 { 260 } else { 25 };
        let mut bytes = file(&sites(layout, random.below(most), &mut random), &mut random);
        for _ in 0..random.below(3) {
            damage(&mut bytes, &mut random);
        }
        same(&bytes, tally);
    }
    for length in [0, 1, 3, 4, 32_764, 32_768, 32_769, 32_772] {
        same(&vec![0; length], tally);
        same(&labels(length), tally);
    }
}

/// A file of so many bytes with labels only.
fn labels(length: usize) -> Vec<u8> {
    b"\x80\x00\x00\x04text".iter().copied().cycle().take(length).collect()
}

fn same(bytes: &[u8], tally: &mut Tally) {
    let proved = mubdrax::report(bytes).map_err(|none| match none {
        NoStatement::Refused(line) => line,
        NoStatement::NoMemory => panic!("memory ran out"),
    });
    let plain = plain::report(bytes);
    assert_eq!(proved, plain, "another report on {bytes:02x?}");
    let number = plain.err().and_then(|line| line.split(' ').nth(1)?.parse().ok());
    tally.count("report", number.unwrap_or(0));
}
