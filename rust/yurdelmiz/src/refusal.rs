//! Refusals, with the numbers of document 01's table.

use std::error::Error;
use std::fmt;
use std::ops::RangeInclusive;

/// Why an input is refused. 9 is not used, and not to be used again.
#[derive(Clone, Copy, Debug, PartialEq, Eq, Hash)]
pub enum Refusal {
    /// 1: above 9,000,000 units of 10^-7.
    Eccentricity,
    /// 2: outside 6,600,000 to 100,000,000 metres.
    SemiMajorAxis,
    /// 3: below 6,478,000 metres.
    PerigeeDistance,
    /// 4: above half a turn.
    Inclination,
    /// 5: outside 20,000,000 to 1,700,000,000 units of 10^-8 revolution a day.
    MeanMotion,
    /// 6: of node or perigee, beyond 200,000 units of 10^-4 degree a day either way.
    DriftRate,
    /// 7: above 99,999.
    EpochRevolution,
    /// 8: epoch or time outside -2,834,956,800 to 3,476,476,799, or over 31,622,400 s apart, or over
    /// 2,592,000 s where the mean motion's derivative is not 0.
    Time,
    /// 10: no multiple of 16 bytes, or over 1,024 records, with the labels of the file that they are
    /// added to; of packets, a 1,025th record, or a day closed within a record.
    TelemetryLength,
    /// 11: shorter than 24 bytes a record and 24; in adding, for the labels of the file too, from the
    /// first of them on; in salvage, for the labels kept; of a packet, shorter than 24 bytes for each record
    /// that it completes, and of closing than 24.
    OutputLength,
    /// 12: a label file's length, a number of its trailer, or how many bytes its tail has.
    Trailer,
    /// 13: a label breaks a field rule, or a count of the trailer is not that of the labels.
    Labels,
    /// 14: of a position beyond 200,000,000 metres, or of the Sun beyond 2^30, either way.
    Component,
    /// 15: of 1,000 files already, or beyond a bound of theirs.
    Figures,
    /// 16: half of it beyond 1,000,000 units of 10^-8 revolution a day squared either way, or the mean
    /// motion less 60 times its size below 20,000,000 units.
    MeanMotionDerivative,
    /// 17: of two-line elements, not of 69 bytes, or with another number than its own at the start.
    Lines,
    /// 18: of a line of two-line elements, not its last byte.
    Checksum,
    /// 19: of two-line elements, no number of its layout, 360 degrees or more, or a day outside its year.
    Field,
    /// 20: of the two lines, not the same.
    SatelliteNumbers,
    /// 21: of element sets, a length no multiple of 52 or beyond its buffer, an epoch not after that of the row
    /// before, or a set that 1 to 8 or 16 would refuse.
    Table,
    /// 22: none in a table for a set of another epoch than its sets have.
    Room,
    /// 23: no past set with an epoch up to the time, and no forecast set.
    NoSet,
    /// 24: closed, or no state of a day.
    Day,
}

/// Each refusal with its number and its sentence.
const TABLE: [(Refusal, u32, &str); 23] = [
    (Refusal::Eccentricity, 1, "the eccentricity is above 0.9"),
    (Refusal::SemiMajorAxis, 2, "the semi-major axis is not within 6,600 to 100,000 km"),
    (Refusal::PerigeeDistance, 3, "the perigee is less than 6,478 km from the Earth's centre"),
    (Refusal::Inclination, 4, "the inclination is above 180 degrees"),
    (Refusal::MeanMotion, 5, "the mean motion is not within 0.2 to 17 revolutions a day"),
    (Refusal::DriftRate, 6, "a drift rate is beyond 20 degrees a day"),
    (Refusal::EpochRevolution, 7, "the epoch's revolution is above 99,999"),
    (Refusal::Time, 8, "the time, or the epoch, is not within 1900 March 1 to 2100 February 28, or they are over 366 days apart, or over 30 where the mean motion's derivative is not 0"),
    (Refusal::TelemetryLength, 10, "the telemetry is not a whole number of 16-byte records, or the file would have over 1,024 labels"),
    (Refusal::OutputLength, 11, "the output has no room for the labels"),
    (Refusal::Trailer, 12, "the label file's length and its trailer do not fit"),
    (Refusal::Labels, 13, "a label breaks the rules, or the trailer's counts are not those of the labels"),
    (Refusal::Component, 14, "a position or the Sun's direction is out of range"),
    (Refusal::Figures, 15, "the figures have 1,000 files already, or are beyond a bound of theirs"),
    (Refusal::MeanMotionDerivative, 16, "half the mean motion's derivative is beyond 0.01 revolutions a day squared, or brings the mean motion below 0.2 revolutions a day within 30 days of the epoch"),
    (Refusal::Lines, 17, "a line of the two has not 69 bytes, or does not begin with its number"),
    (Refusal::Checksum, 18, "a line of the two does not end with its checksum"),
    (Refusal::Field, 19, "a field of the two lines does not fit its layout, or is 360 degrees or more, or a day outside its year"),
    (Refusal::SatelliteNumbers, 20, "the two lines have different satellite numbers"),
    (Refusal::Table, 21, "a table of element sets has a wrong length, is not in rising order of epoch, or has a set that is refused"),
    (Refusal::Room, 22, "the table has no room for a set of another epoch"),
    (Refusal::NoSet, 23, "no past set has an epoch up to the time, and there is no forecast set"),
    (Refusal::Day, 24, "the day is closed, or its state is none of a day"),
];

/// The numbers that calls of element sets alone give.
const OF_SETS: RangeInclusive<u32> = 21..=23;

fn of_status(number: u32) -> Option<Refusal> {
    TABLE.iter().find(|row| row.1 == number).map(|row| row.0)
}

impl Refusal {
    /// The number in document 01's table.
    pub fn number(self) -> u32 {
        self.row().1
    }

    /// The refusal of a number in document 01's table. Those of element sets alone, 21 to 23, are had from the calls
    /// that give them.
    pub fn from_number(number: u32) -> Option<Refusal> {
        of_status(number).filter(|_| !OF_SETS.contains(&number))
    }

    /// What is wrong, in a sentence without its full stop.
    pub fn sentence(self) -> &'static str {
        self.row().2
    }

    fn row(self) -> &'static (Refusal, u32, &'static str) {
        TABLE.iter().find(|row| row.0 == self).expect("the table has every refusal")
    }
}

impl fmt::Display for Refusal {
    fn fmt(&self, f: &mut fmt::Formatter) -> fmt::Result {
        write!(f, "refused {}: {}", self.number(), self.sentence())
    }
}

impl Error for Refusal {}

/// A refusal from labelling, packets, reading, adding or scale figures, with the number of the record or label from 0,
/// which in packets counts over the whole day, and in adding over the whole file; or one of two-line elements, with
/// the first column of a field, from 1, on the second line from 70.
#[derive(Clone, Copy, Debug, PartialEq, Eq, Hash)]
pub struct Refused {
    /// Why.
    pub refusal: Refusal,
    /// 0 where no record, label or field is at fault.
    pub place: u32,
}

impl fmt::Display for Refused {
    fn fmt(&self, f: &mut fmt::Formatter) -> fmt::Result {
        let Refused { refusal, place } = self;
        write!(f, "refused {} at {place}: {}", refusal.number(), refusal.sentence())
    }
}

impl Error for Refused {}

/// The outcome that a status tells.
pub(crate) fn check(status: u32) -> Result<(), Refusal> {
    match status {
        0 => Ok(()),
        number => Err(of_status(number)
            .unwrap_or_else(|| panic!("status {number} is outside the C interface"))),
    }
}

/// The outcome told by a status in the low 32 bits and a place in the high ones.
pub(crate) fn check_with_place(result: u64) -> Result<(), Refused> {
    check(result as u32).map_err(|refusal| Refused { refusal, place: (result >> 32) as u32 })
}
