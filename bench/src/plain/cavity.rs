//! The hole that a site makes: what is dropped, the shell, and the records that fill it.
use super::geometry::{Point, corners_of, depth};
use super::wholeness::{face, opposite};
use mubdrax::{NONE, PointRecord, TetRecord};

/// A face of a dropped record whose neighbour is none or kept.
#[derive(Clone, Copy)]
struct ShellFace {
    record: usize,
    slot: usize,
}

/// An edge of a shell face: its two points, the face's place in the shell, and the slot of the new record's face over
/// the edge.
type Edge = (u16, u16, usize, usize);

/// Buffers that one add after another works in.
#[derive(Default)]
pub struct Cavity {
    dropped: Vec<bool>,
    numbers: Vec<usize>,
    shell: Vec<ShellFace>,
    edges: Vec<Edge>,
    seen: Vec<bool>,
    made: Vec<TetRecord>,
}

impl Cavity {
    /// Asks about every used tetrahedron. Whether any is dropped.
    pub fn find(&mut self, points: &[PointRecord], used: &[TetRecord], site: &Point) -> bool {
        self.dropped.clear();
        self.dropped.extend(used.iter().map(|tet| depth(&corners_of(points, tet), site) > 0));
        self.shell.clear();
        for (record, tet) in used.iter().enumerate().filter(|(record, _)| self.dropped[*record]) {
            for slot in 0..4 {
                let across = tet.neighbours[slot];
                if across == NONE || !self.dropped[usize::from(across)] {
                    self.shell.push(ShellFace { record, slot });
                }
            }
        }
        self.dropped.contains(&true)
    }

    pub fn shell_faces(&self) -> usize {
        self.shell.len()
    }

    /// Whether each shell edge lies in exactly two shell faces.
    pub fn is_closed(&mut self, used: &[TetRecord]) -> bool {
        self.edges.clear();
        for (place, face) in self.shell.iter().enumerate() {
            let points = &used[face.record].points;
            for over in (0..4).filter(|&over| over != face.slot) {
                let mut ends = (0..4).filter(|&end| end != face.slot && end != over).map(|end| points[end]);
                if let (Some(a), Some(b)) = (ends.next(), ends.next()) {
                    self.edges.push((a.min(b), a.max(b), place, over));
                }
            }
        }
        self.edges.sort_unstable();
        self.edges.chunk_by(|a, b| (a.0, a.1) == (b.0, b.1)).all(|faces| faces.len() == 2)
    }

    /// The used points that would belong to no tetrahedron.
    pub fn vanishing(&mut self, used: &[TetRecord], points: usize) -> Option<Vec<u16>> {
        self.seen.clear();
        self.seen.resize(points, false);
        for (tet, _) in used.iter().zip(&self.dropped).filter(|(_, dropped)| !**dropped) {
            tet.points.iter().for_each(|&point| self.seen[usize::from(point)] = true);
        }
        for shell in &self.shell {
            face(&used[shell.record], shell.slot).iter().for_each(|&point| self.seen[usize::from(point)] = true);
        }
        self.seen.contains(&false).then(|| (0u16..).zip(&self.seen).filter(|(_, seen)| !**seen).map(|(n, _)| n).collect())
    }

    /// Fills the hole and returns how many records are used then. `is_closed` has been asked before.
    pub fn fill(&mut self, tets: &mut [TetRecord], used: usize, site: u16) -> usize {
        let kept = self.number();
        self.make(&tets[..used], site, kept);
        self.join(kept);
        self.compact(tets, used);
        for (place, (shell, made)) in self.shell.iter().zip(&self.made).enumerate() {
            let across = made.neighbours[shell.slot];
            if across != NONE {
                let shared = face(made, shell.slot);
                let other = &mut tets[usize::from(across)];
                let back = opposite(other, shared).expect("whole tables share the face");
                other.neighbours[back] = (kept + place) as u16;
            }
        }
        let count = kept + self.made.len();
        tets[kept..count].copy_from_slice(&self.made);
        tets[count..used + self.made.len()].fill(TetRecord::default());
        count
    }

    /// Numbers the kept records in their order.
    fn number(&mut self) -> usize {
        self.numbers.clear();
        let mut kept = 0;
        for &dropped in &self.dropped {
            self.numbers.push(kept);
            kept += usize::from(!dropped);
        }
        kept
    }

    /// Makes the new records, with the old neighbour across each shell face.
    fn make(&mut self, used: &[TetRecord], site: u16, kept: usize) {
        debug_assert!(kept <= used.len());
        self.made.clear();
        for shell in &self.shell {
            let old = &used[shell.record];
            let mut made = TetRecord { points: old.points, neighbours: [NONE; 4], mark: 0 };
            made.points[shell.slot] = site;
            let across = old.neighbours[shell.slot];
            if across != NONE {
                made.neighbours[shell.slot] = self.numbers[usize::from(across)] as u16;
            }
            self.made.push(made);
        }
    }

    /// Joins the new records over each shell edge. The edges stand in pairs.
    fn join(&mut self, kept: usize) {
        for pair in self.edges.chunks_exact(2) {
            let (_, _, first, over_first) = pair[0];
            let (_, _, second, over_second) = pair[1];
            self.made[first].neighbours[over_first] = (kept + second) as u16;
            self.made[second].neighbours[over_second] = (kept + first) as u16;
        }
    }

    /// Moves the kept records together. Neighbours that are dropped are written afterwards.
    fn compact(&self, tets: &mut [TetRecord], used: usize) {
        for k in (0..used).filter(|&k| !self.dropped[k]) {
            let mut tet = tets[k];
            for neighbour in tet.neighbours.iter_mut().filter(|neighbour| **neighbour != NONE) {
                *neighbour = self.numbers[usize::from(*neighbour)] as u16;
            }
            tets[self.numbers[k]] = tet;
        }
    }
}
