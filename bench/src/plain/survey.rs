//! Creating, adding, locating and stating over the caller's tables.
use super::assay::{admits, class};
use super::cavity::Cavity;
use super::geometry::{Point, corners_of, owns, side};
use super::wholeness::{corner_records, is_whole, light, on_grid};
use mubdrax::{Counts, NONE, PointRecord, ReadingRecord, Site, Statement, TetRecord};

/// The number of the first question answered no; with 12, all the points that would vanish.
#[derive(Clone, Debug, PartialEq, Eq)]
pub struct Refusal {
    pub number: u32,
    pub vanishing: Vec<u16>,
}

impl From<u32> for Refusal {
    fn from(number: u32) -> Refusal {
        Refusal { number, vanishing: Vec::new() }
    }
}

/// A survey: its counts, and buffers for adding.
pub struct Survey {
    counts: Counts,
    cavity: Cavity,
}

impl Survey {
    pub fn create(
        points: &mut [PointRecord],
        readings: &mut [ReadingRecord],
        tets: &mut [TetRecord],
    ) -> Result<Survey, Refusal> {
        if !(5..=1024).contains(&points.len()) || readings.len() != points.len() {
            return Err(1.into());
        }
        if !(1..=16_384).contains(&tets.len()) {
            return Err(2.into());
        }
        points[..4].copy_from_slice(&corner_records());
        tets[0] = TetRecord { points: [0, 1, 2, 3], neighbours: [NONE; 4], mark: 0 };
        let counts = Counts { points: 4, tets: 1, point_records: points.len(), tet_records: tets.len() };
        Ok(Survey { counts, cavity: Cavity::default() })
    }

    /// A survey with these counts.
    pub fn resume(counts: Counts) -> Survey {
        Survey { counts, cavity: Cavity::default() }
    }

    pub fn counts(&self) -> Counts {
        self.counts
    }

    pub fn add(
        &mut self,
        points: &mut [PointRecord],
        readings: &mut [ReadingRecord],
        tets: &mut [TetRecord],
        site: &Site,
    ) -> Result<u16, Refusal> {
        self.ask_site(points, readings, tets, site)?;
        let number = self.counts.points;
        self.ask_cavity(&points[..number], &tets[..self.counts.tets], site)?;
        self.counts.tets = self.cavity.fill(tets, self.counts.tets, number as u16);
        self.counts.points += 1;
        points[number] = PointRecord { x: site.x, y: site.y, z: site.z, penalty: site.penalty, mark: 0 };
        readings[number] = site.reading;
        Ok(number as u16)
    }

    /// Questions 1 to 6.
    fn ask_site(
        &self,
        points: &[PointRecord],
        readings: &[ReadingRecord],
        tets: &[TetRecord],
        site: &Site,
    ) -> Result<(), Refusal> {
        let place = [site.x, site.y, site.z];
        self.ask_whole(points, readings, tets)?;
        let sites = &points[4..self.counts.points];
        if !on_grid(place) {
            return Err(4.into());
        }
        if !light(site.penalty) {
            return Err(5.into());
        }
        if !admits(&site.reading) {
            return Err(6.into());
        }
        if self.counts.points == self.counts.point_records {
            return Err(7.into());
        }
        if sites.iter().any(|point| [point.x, point.y, point.z] == place) {
            return Err(8.into());
        }
        Ok(())
    }

    /// Questions 7 to 10.
    fn ask_cavity(&mut self, points: &[PointRecord], used: &[TetRecord], site: &Site) -> Result<(), Refusal> {
        if !self.cavity.find(points, used, &Point::new(site.x, site.y, site.z)) {
            return Err(9.into());
        }
        if used.len() + self.cavity.shell_faces() > self.counts.tet_records {
            return Err(10.into());
        }
        if !self.cavity.is_closed(used) {
            return Err(11.into());
        }
        match self.cavity.vanishing(used, points.len()) {
            Some(vanishing) => Err(Refusal { number: 12, vanishing }),
            None => Ok(()),
        }
    }

    /// Counts that no survey has are refused with 15, before anything is looked at.
    fn ask_whole(&self, points: &[PointRecord], readings: &[ReadingRecord], tets: &[TetRecord]) -> Result<(), Refusal> {
        let counts = &self.counts;
        let fit = 4 <= counts.points
            && counts.points <= counts.point_records
            && counts.point_records <= 1024
            && counts.tets <= counts.tet_records
            && counts.tet_records <= 16_384;
        if !fit {
            return Err(15.into());
        }
        if !is_whole(counts, points, readings.len(), tets) {
            return Err(3.into());
        }
        Ok(())
    }

    pub fn locate(
        &self,
        points: &[PointRecord],
        readings: &[ReadingRecord],
        tets: &[TetRecord],
        place: [u16; 3],
    ) -> Result<u16, Refusal> {
        self.ask_whole(points, readings, tets)?;
        if !on_grid(place) {
            return Err(4.into());
        }
        let owner = tets[..self.counts.tets].iter().position(|tet| owns(&corners_of(points, tet), place));
        owner.map(|record| record as u16).ok_or_else(|| 13.into())
    }

    pub fn state(
        &self,
        points: &[PointRecord],
        readings: &[ReadingRecord],
        tets: &[TetRecord],
        statement: &mut Statement,
    ) -> Result<(), Refusal> {
        self.ask_whole(points, readings, tets)?;
        *statement = Statement::default();
        for tet in &tets[..self.counts.tets] {
            let [a, b, c, d] = corners_of(points, tet);
            let units = side(&a, &b, &c, &d);
            if tet.points.iter().any(|&point| point < 4) {
                statement.margin += units;
            } else {
                let line = &mut statement.lines[class(tet.points.map(|point| &readings[usize::from(point)]))];
                line.tetrahedra += 1;
                line.units += units;
            }
        }
        Ok(())
    }
}
