//! Elements as text: the proved reader of elements files, with the fault where there is one.

use std::error::Error;
use std::fmt;

use crate::elements::Elements;
use crate::ffi;

/// An element as an elements file names it, in the order of the file.
#[derive(Clone, Copy, Debug, PartialEq, Eq, Hash, PartialOrd, Ord)]
pub enum Element {
    /// `eccentricity`
    Eccentricity,
    /// `semi_major_axis`
    SemiMajorAxis,
    /// `inclination`
    Inclination,
    /// `node`
    Node,
    /// `argument_of_perigee`
    ArgumentOfPerigee,
    /// `mean_anomaly`
    MeanAnomaly,
    /// `mean_motion`
    MeanMotion,
    /// `node_rate`
    NodeRate,
    /// `perigee_rate`
    PerigeeRate,
    /// `epoch_revolution`
    EpochRevolution,
    /// `epoch`
    Epoch,
    /// `half_mean_motion_derivative`
    HalfMeanMotionDerivative,
}

impl Element {
    /// Every element, in the order of the file.
    pub const ALL: [Element; 12] = [
        Element::Eccentricity,
        Element::SemiMajorAxis,
        Element::Inclination,
        Element::Node,
        Element::ArgumentOfPerigee,
        Element::MeanAnomaly,
        Element::MeanMotion,
        Element::NodeRate,
        Element::PerigeeRate,
        Element::EpochRevolution,
        Element::Epoch,
        Element::HalfMeanMotionDerivative,
    ];

    /// The name that begins its line.
    pub fn name(self) -> &'static str {
        match self {
            Element::Eccentricity => "eccentricity",
            Element::SemiMajorAxis => "semi_major_axis",
            Element::Inclination => "inclination",
            Element::Node => "node",
            Element::ArgumentOfPerigee => "argument_of_perigee",
            Element::MeanAnomaly => "mean_anomaly",
            Element::MeanMotion => "mean_motion",
            Element::NodeRate => "node_rate",
            Element::PerigeeRate => "perigee_rate",
            Element::EpochRevolution => "epoch_revolution",
            Element::Epoch => "epoch",
            Element::HalfMeanMotionDerivative => "half_mean_motion_derivative",
        }
    }

    /// What its value counts.
    pub fn unit(self) -> &'static str {
        match self {
            Element::Eccentricity => "units of 10^-7",
            Element::SemiMajorAxis => "metres",
            Element::Inclination
            | Element::Node
            | Element::ArgumentOfPerigee
            | Element::MeanAnomaly => "units of 2^-32 turn",
            Element::MeanMotion => "units of 10^-8 revolution a day",
            Element::NodeRate | Element::PerigeeRate => "units of 10^-4 degree a day",
            Element::EpochRevolution => "revolutions",
            Element::Epoch => "seconds from 1989 December 31, 0h",
            Element::HalfMeanMotionDerivative => "units of 10^-8 revolution a day squared",
        }
    }
}

/// What is wrong with a line of an elements file.
#[derive(Clone, Copy, Debug, PartialEq, Eq, Hash)]
pub enum Fault {
    /// It does not begin with the name that is due and a space.
    Name,
    /// It is neither comment nor empty, and stands after the last element.
    Extra,
    /// It has a byte below 32 outside a comment, as a tab or a carriage return.
    ControlByte,
    /// It has a decimal point in its value.
    DecimalPoint,
    /// It has something else in its value than digits, or none.
    NotWhole,
    /// It has a value that its element does not hold.
    TooLarge,
    /// The file ends within it.
    Unended,
    /// It is past the end of the file, before the last element.
    Missing,
    /// The file has more than 65,535 bytes.
    TooLong,
}

/// Each fault with its status in the C interface.
const FAULTS: [(u32, Fault); 9] = [
    (ffi::MALFORMED_NAME, Fault::Name),
    (ffi::MALFORMED_EXTRA, Fault::Extra),
    (ffi::MALFORMED_CONTROL_BYTE, Fault::ControlByte),
    (ffi::MALFORMED_DECIMAL_POINT, Fault::DecimalPoint),
    (ffi::MALFORMED_NOT_WHOLE, Fault::NotWhole),
    (ffi::MALFORMED_TOO_LARGE, Fault::TooLarge),
    (ffi::MALFORMED_UNENDED, Fault::Unended),
    (ffi::MALFORMED_MISSING, Fault::Missing),
    (ffi::MALFORMED_TOO_LONG, Fault::TooLong),
];

/// The first fault of an elements file.
#[derive(Clone, Copy, Debug, PartialEq, Eq, Hash)]
pub struct Malformed {
    /// What is wrong.
    pub fault: Fault,
    /// The line, counted from 1.
    pub line: u32,
    /// The element that was due there; none after the last.
    pub element: Option<Element>,
}

impl Malformed {
    /// What is wrong and what is due, in a sentence without its full stop.
    pub fn sentence(&self) -> String {
        let (name, unit) = self.element.map_or(("", ""), |due| (due.name(), due.unit()));
        match self.fault {
            Fault::Name => format!(
                "{name}, one space and a number are due here: each element stands once, in its order"
            ),
            Fault::Extra => "only comments may follow the last element".to_owned(),
            Fault::ControlByte => {
                "a tab, a carriage return or another control byte stands here".to_owned()
            }
            Fault::DecimalPoint => {
                format!("{name} has a decimal point: write a whole number, in {unit}")
            }
            Fault::NotWhole => format!("{name} is not a whole number, in {unit}"),
            Fault::TooLarge => format!("{name} is too large, in {unit}"),
            Fault::Unended => "the file ends within this line".to_owned(),
            Fault::Missing => format!("{name} is missing: the file ends before it"),
            Fault::TooLong => "the file has more than 65,535 bytes".to_owned(),
        }
    }

    fn from_result(result: u64) -> Malformed {
        let (status, place) = (result as u32, (result >> 32) as u32);
        let (_, fault) = FAULTS
            .into_iter()
            .find(|(known, _)| *known == status)
            .unwrap_or_else(|| panic!("status {status} is outside the C interface"));
        Malformed {
            fault,
            line: place & 0xff_ffff,
            element: Element::ALL.get((place >> 24) as usize).copied(),
        }
    }
}

impl fmt::Display for Malformed {
    fn fmt(&self, f: &mut fmt::Formatter) -> fmt::Result {
        write!(f, "malformed line {}: {}", self.line, self.sentence())
    }
}

impl Error for Malformed {}

/// Reads an elements file. Its text may be any bytes; docs/FORMATS.md has what is accepted.
pub fn parse_elements(text: &[u8]) -> Result<Elements, Malformed> {
    let mut answer = [0; ffi::ELEMENTS_BYTES];
    // SAFETY: the slices are `text` and `answer`.
    let result = unsafe {
        ffi::yurdelmiz_elements(text.as_ptr(), text.len(), answer.as_mut_ptr(), answer.len())
    };
    if result == 0 {
        Ok(Elements::from_bytes(&answer))
    } else {
        Err(Malformed::from_result(result))
    }
}
