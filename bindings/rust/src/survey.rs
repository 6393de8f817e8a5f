//! Surveys over lent tables. An open survey can be added to, a sealed one located in and stated.
use crate::ffi;
use crate::record::{Counts, PointRecord, Reading, ReadingRecord, Statement, TetRecord};
use crate::refusal::Refusal;

/// A site as it is brought: its place in decimetres, its penalty, and what was found there.
#[derive(Clone, Copy, Debug, PartialEq)]
pub struct Site {
    pub x: u16,
    pub y: u16,
    pub z: u16,
    pub penalty: u32,
    pub reading: ReadingRecord,
}

impl Site {
    /// A site without a penalty.
    pub fn new(x: u16, y: u16, z: u16, reading: Reading) -> Site {
        Site { x, y, z, penalty: 0, reading: reading.into() }
    }
}

/// A survey that can be added to, under the plain measure, graded by assay.
#[derive(Debug)]
pub struct Open {
    counts: Counts,
}

/// A survey that can be located in and stated.
#[derive(Debug)]
pub struct Sealed {
    counts: Counts,
}

impl Open {
    /// A survey without sites: writes the corners and the big tetrahedron.
    pub fn create(
        points: &mut [PointRecord],
        readings: &mut [ReadingRecord],
        tets: &mut [TetRecord],
    ) -> Result<Open, Refusal> {
        let mut counts = Counts::default();
        // Each slice is passed with its own length.
        let answer = unsafe {
            ffi::mubdrax_create(
                &mut counts,
                points.as_mut_ptr(),
                points.len(),
                readings.as_mut_ptr(),
                readings.len(),
                tets.as_mut_ptr(),
                tets.len(),
            )
        };
        answer.into_result().map(|_| Open { counts })
    }

    /// The survey with these counts. Counts that no survey has are refused by its calls, with 15.
    pub fn resume(counts: Counts) -> Open {
        Open { counts }
    }

    pub fn counts(&self) -> Counts {
        self.counts
    }

    /// Adds a site and returns its number. A refusal changes nothing.
    pub fn add(
        &mut self,
        points: &mut [PointRecord],
        readings: &mut [ReadingRecord],
        tets: &mut [TetRecord],
        site: &Site,
    ) -> Result<u16, Refusal> {
        // Each slice is passed with its own length.
        let answer = unsafe {
            ffi::mubdrax_add(
                &mut self.counts,
                points.as_mut_ptr(),
                points.len(),
                readings.as_mut_ptr(),
                readings.len(),
                tets.as_mut_ptr(),
                tets.len(),
                site.x,
                site.y,
                site.z,
                site.penalty,
                site.reading,
            )
        };
        answer.into_result()
    }

    /// The same survey, closed to further sites.
    pub fn seal(self) -> Sealed {
        Sealed { counts: self.counts }
    }
}

impl Sealed {
    /// The lowest used record that owns a place.
    pub fn locate(
        &self,
        points: &[PointRecord],
        readings: &[ReadingRecord],
        tets: &[TetRecord],
        [x, y, z]: [u16; 3],
    ) -> Result<u16, Refusal> {
        // Each slice is passed with its own length.
        let answer = unsafe {
            ffi::mubdrax_locate(
                &self.counts,
                points.as_ptr(),
                points.len(),
                readings.as_ptr(),
                readings.len(),
                tets.as_ptr(),
                tets.len(),
                x,
                y,
                z,
            )
        };
        answer.into_result()
    }

    /// Fills the statement. A refusal leaves it as it is.
    pub fn state(
        &self,
        points: &[PointRecord],
        readings: &[ReadingRecord],
        tets: &[TetRecord],
        statement: &mut Statement,
    ) -> Result<(), Refusal> {
        // Each slice is passed with its own length.
        let answer = unsafe {
            ffi::mubdrax_state(
                &self.counts,
                points.as_ptr(),
                points.len(),
                readings.as_ptr(),
                readings.len(),
                tets.as_ptr(),
                tets.len(),
                statement,
            )
        };
        answer.into_result().map(drop)
    }
}
