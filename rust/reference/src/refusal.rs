//! The refusals, with the numbers of document 01's table.

/// Why an input is refused. The number 9 stands for nothing, and never will.
#[derive(Clone, Copy, Debug, PartialEq, Eq)]
pub enum Refusal {
    /// Eccentricity above 9,000,000.
    Eccentricity = 1,
    /// Semi-major axis outside 6,600,000 to 100,000,000 metres.
    SemiMajorAxis = 2,
    /// Perigee distance below 6,478,000 metres.
    PerigeeDistance = 3,
    /// Inclination above half a turn.
    Inclination = 4,
    /// Mean motion outside 20,000,000 to 1,700,000,000.
    MeanMotion = 5,
    /// Drift rate of node or perigee beyond ±200,000.
    DriftRate = 6,
    /// Epoch revolution above 99,999.
    EpochRevolution = 7,
    /// Epoch or time outside the years covered, or too far apart.
    Time = 8,
    /// Telemetry that is no whole number of records, or over 1,024 of them, with the labels of the file or day
    /// that it is added to.
    TelemetryLength = 10,
    /// Output, or room from a file's first label on, too short for the labels and the trailer; of a packet for
    /// its labels, of closing for the trailer.
    OutputLength = 11,
    /// Length or trailer of a label file, or how many bytes its tail has.
    Trailer = 12,
    /// A label that breaks a field rule, or counts that are not those of the labels.
    Labels = 13,
    /// Position or Sun component out of range.
    Component = 14,
    /// Scale figures of 1,000 files already, or beyond a bound of theirs.
    Figures = 15,
    /// Half the mean motion's derivative beyond ±1,000,000, or the mean motion less 60 times its size
    /// below 20,000,000.
    MeanMotionDerivative = 16,
    /// A line of two-line elements that has not 69 bytes, or does not begin with its number.
    Lines = 17,
    /// A line of two-line elements that does not end with its checksum.
    Checksum = 18,
    /// A field of two-line elements that is not written as the layout has it, an angle of 360 degrees or more, or a
    /// day outside its year.
    Field = 19,
    /// Satellite numbers that differ between the two lines.
    SatelliteNumbers = 20,
    /// A table of element sets that is no whole number of rows or reaches beyond its buffer, is not in rising order of
    /// epoch, or has a set that is refused.
    Table = 21,
    /// No room in a table for a set of another epoch.
    Room = 22,
    /// No past set up to the time, and no forecast set.
    NoSet = 23,
    /// A day that is closed, or a state that is none of a day.
    Day = 24,
}

impl Refusal {
    /// The number in document 01's table.
    pub fn number(self) -> u32 {
        self as u32
    }
}

/// A refusal from labelling, packets, reading, adding or scale figures, with the number of the record or label over
/// the whole day or file; or from two-line elements, with the first column of the field, from 1, on the second line
/// from 70.
#[derive(Clone, Copy, Debug, PartialEq, Eq)]
pub struct Refused {
    pub refusal: Refusal,
    /// 0 where no record, label or field is at fault.
    pub place: u32,
}

impl From<Refusal> for Refused {
    fn from(refusal: Refusal) -> Self {
        Refused { refusal, place: 0 }
    }
}
