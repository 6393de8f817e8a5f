//! Why a call is refused.
use std::error::Error;
use std::fmt;

/// The number of the first question that was answered no; 12 comes with a point that would vanish.
#[derive(Clone, Copy, Debug, PartialEq, Eq)]
pub struct Refusal {
    pub number: u32,
    /// The point that would belong to no tetrahedron, where the number is 12.
    pub point: Option<u16>,
}

impl fmt::Display for Refusal {
    fn fmt(&self, f: &mut fmt::Formatter<'_>) -> fmt::Result {
        let said = match self.number {
            1 => "not 5 to 1,024 point records, or not as many reading records",
            2 => "not 1 to 16,384 tetrahedron records",
            3 => "the tables are not whole",
            4 => "a coordinate is not from 1 to 800",
            5 => "the penalty is above 1,000,000",
            6 => "the reading is not admitted",
            7 => "no point record is unused",
            8 => "a site has this place already",
            9 => "the site conflicts with no tetrahedron",
            10 => "the tetrahedron table is full",
            11 => "a shell edge does not lie in exactly two shell faces",
            12 => "a point would belong to no tetrahedron",
            13 => "no tetrahedron owns the place",
            15 => "the counts are those of no survey",
            _ => "refused",
        };
        write!(f, "{}: {said}", self.number)
    }
}

impl Error for Refusal {}
