//! Two-line elements: the proved reader, and the columns of the fields that it looks at.

use crate::elements::Elements;
use crate::ffi;
use crate::refusal::{self, Refused};

/// A field of two-line elements, with the columns that it stands in, counted from 1.
#[derive(Clone, Copy, Debug, PartialEq, Eq, Hash)]
pub struct TwoLineField {
    /// What it holds.
    pub name: &'static str,
    /// Its line, 1 or 2.
    pub line: usize,
    /// Its first column.
    pub first: usize,
    /// Its last column.
    pub last: usize,
}

impl TwoLineField {
    /// The columns of a line, of which the last has the checksum.
    pub const COLUMNS: usize = 69;

    /// Every field that is looked at, line 1 from the left, then line 2.
    pub const ALL: [TwoLineField; 12] = [
        field("satellite number", 1, 3, 7),
        field("year of the epoch", 1, 19, 20),
        field("day of the epoch", 1, 21, 32),
        field("half the derivative of the mean motion", 1, 34, 43),
        field("satellite number", 2, 3, 7),
        field("inclination", 2, 9, 16),
        field("right ascension of the ascending node", 2, 18, 25),
        field("eccentricity", 2, 27, 33),
        field("argument of perigee", 2, 35, 42),
        field("mean anomaly", 2, 44, 51),
        field("mean motion", 2, 53, 63),
        field("revolution at the epoch", 2, 64, 68),
    ];

    /// The place of a refusal 19 about it: its first column, on line 2 with the columns of line 1 ahead of it.
    pub fn place(&self) -> u32 {
        (Self::COLUMNS * (self.line - 1) + self.first) as u32
    }

    /// The field that a refusal 19 at a place is about.
    pub fn at(place: u32) -> Option<TwoLineField> {
        Self::ALL.into_iter().find(|field| field.place() == place)
    }
}

const fn field(name: &'static str, line: usize, first: usize, last: usize) -> TwoLineField {
    TwoLineField { name, line, first, last }
}

/// Reads two-line elements: the two lines, each without what ends it, and beside them the semi-major axis and the
/// drift rates, which they do not have. The lines may be any bytes; docs/FORMATS.md has what is accepted.
pub fn parse_two_line(
    lines: [&[u8]; 2],
    semi_major_axis: u32,
    node_rate: i32,
    perigee_rate: i32,
) -> Result<Elements, Refused> {
    let [first, second] = lines;
    let mut answer = [0; ffi::ELEMENTS_BYTES];
    // SAFETY: the slices are the two lines and `answer`.
    let result = unsafe {
        ffi::yurdelmiz_two_line(
            first.as_ptr(),
            first.len(),
            second.as_ptr(),
            second.len(),
            semi_major_axis,
            node_rate,
            perigee_rate,
            answer.as_mut_ptr(),
            answer.len(),
        )
    };
    refusal::check_with_place(result)?;
    Ok(Elements::from_bytes(&answer))
}
