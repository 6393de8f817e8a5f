//! Points, Side and Depth under the plain measure.
use mubdrax::{PointRecord, TetRecord};

/// A point with its lift.
#[derive(Clone, Copy, Debug)]
pub struct Point {
    pub x: i64,
    pub y: i64,
    pub z: i64,
    pub lift: i64,
}

impl Point {
    pub fn new(x: u16, y: u16, z: u16) -> Point {
        let (x, y, z) = (i64::from(x), i64::from(y), i64::from(z));
        Point { x, y, z, lift: x * x + y * y + z * z }
    }
}

impl From<&PointRecord> for Point {
    fn from(record: &PointRecord) -> Point {
        Point::new(record.x, record.y, record.z)
    }
}

/// The four points of a record.
pub fn corners_of(points: &[PointRecord], tet: &TetRecord) -> [Point; 4] {
    tet.points.map(|number| Point::from(&points[usize::from(number)]))
}

/// The determinant with rows b − a, c − a, d − a.
pub fn side(a: &Point, b: &Point, c: &Point, d: &Point) -> i64 {
    let (ux, uy, uz) = (b.x - a.x, b.y - a.y, b.z - a.z);
    let (vx, vy, vz) = (c.x - a.x, c.y - a.y, c.z - a.z);
    let (wx, wy, wz) = (d.x - a.x, d.y - a.y, d.z - a.z);
    ux * (vy * wz - vz * wy) - uy * (vx * wz - vz * wx) + uz * (vx * wy - vy * wx)
}

/// Above zero where e conflicts with the tetrahedron.
pub fn depth([a, b, c, d]: &[Point; 4], e: &Point) -> i64 {
    side(e, b, c, d) * (a.lift - e.lift)
        + side(a, e, c, d) * (b.lift - e.lift)
        + side(a, b, e, d) * (c.lift - e.lift)
        + side(a, b, c, e) * (d.lift - e.lift)
}

/// Whether the tetrahedron owns a place: at each face, Side with the place put for the point opposite, or else the
/// first of its changes along x, y and z that is not zero, is positive.
pub fn owns(tet: &[Point; 4], [x, y, z]: [u16; 3]) -> bool {
    let here = Point::new(x, y, z);
    let steps = [Point::new(x + 1, y, z), Point::new(x, y + 1, z), Point::new(x, y, z + 1)];
    (0..4).all(|slot| {
        let with = |g: Point| {
            let mut put = *tet;
            put[slot] = g;
            let [a, b, c, d] = put;
            side(&a, &b, &c, &d)
        };
        let start = with(here);
        if start != 0 {
            return start > 0;
        }
        let change = steps.iter().map(|&g| with(g) - start).find(|&change| change != 0);
        change.is_some_and(|change| change > 0)
    })
}
