//! Whether the tables are whole.
use super::geometry::{corners_of, side};
use mubdrax::{Counts, NONE, PointRecord, TetRecord};

const CORNERS: [[u16; 3]; 4] = [[0, 0, 0], [2560, 0, 0], [0, 2560, 0], [0, 0, 2560]];

/// The corners, as creating writes them.
pub fn corner_records() -> [PointRecord; 4] {
    CORNERS.map(|[x, y, z]| PointRecord { x, y, z, penalty: 0, mark: 0 })
}

pub fn on_grid(place: [u16; 3]) -> bool {
    place.iter().all(|coordinate| (1..=800).contains(coordinate))
}

pub fn light(penalty: u32) -> bool {
    penalty <= 1_000_000
}

/// The three points of the face that lacks point `slot`.
pub fn face(tet: &TetRecord, slot: usize) -> [u16; 3] {
    let [a, b, c, d] = tet.points;
    match slot {
        0 => [b, c, d],
        1 => [a, c, d],
        2 => [a, b, d],
        _ => [a, b, c],
    }
}

/// The slot of a record's point that is not on the face, if the record has the whole face.
pub fn opposite(tet: &TetRecord, face: [u16; 3]) -> Option<usize> {
    if !face.iter().all(|point| tet.points.contains(point)) {
        return None;
    }
    tet.points.iter().position(|point| !face.contains(point))
}

pub fn is_whole(counts: &Counts, points: &[PointRecord], readings: usize, tets: &[TetRecord]) -> bool {
    if points.len() != counts.point_records || readings != counts.point_records || tets.len() != counts.tet_records {
        return false;
    }
    let points = &points[..counts.points];
    let tets = &tets[..counts.tets];
    points.iter().enumerate().all(|(number, point)| is_whole_point(number, point))
        && (0..tets.len()).all(|k| is_whole_tet(points, tets, k))
}

fn is_whole_point(number: usize, point: &PointRecord) -> bool {
    let place = [point.x, point.y, point.z];
    point.mark == 0
        && match CORNERS.get(number) {
            Some(&corner) => place == corner && point.penalty == 0,
            None => on_grid(place) && light(point.penalty),
        }
}

fn is_whole_tet(points: &[PointRecord], tets: &[TetRecord], k: usize) -> bool {
    let tet = &tets[k];
    let [a, b, c, d] = tet.points;
    let different = a != b && a != c && a != d && b != c && b != d && c != d;
    let used = tet.points.iter().all(|&point| usize::from(point) < points.len());
    tet.mark == 0 && different && used && (0..4).all(|slot| is_linked(tets, k, slot)) && {
        let [a, b, c, d] = corners_of(points, tet);
        side(&a, &b, &c, &d) > 0
    }
}

/// Whether the neighbour across a face is none for an outer face, and otherwise a record that has the face and names
/// this one back.
fn is_linked(tets: &[TetRecord], k: usize, slot: usize) -> bool {
    let shared = face(&tets[k], slot);
    let neighbour = tets[k].neighbours[slot];
    let outer = shared.iter().all(|&point| point < 4);
    if outer || neighbour == NONE {
        return outer && neighbour == NONE;
    }
    let across = usize::from(neighbour);
    if across >= tets.len() || across == k {
        return false;
    }
    opposite(&tets[across], shared).is_some_and(|back| usize::from(tets[across].neighbours[back]) == k)
}
