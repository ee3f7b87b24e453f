//! Two-line elements: two lines of 69 columns, read by the published layout. Columns count from 1.

use std::ops::RangeInclusive;

use crate::orbit::Elements;
use crate::refusal::{Refusal, Refused};
use crate::sine::{angle, Angle};

/// The columns of a line, of which the last has the checksum.
pub const COLUMNS: usize = 69;

/// The seconds of a day.
const DAY: u64 = 86_400;

/// A millionth of a second is the unit of an epoch until it is moved.
const SECOND: u64 = 1_000_000;

/// How a number is written, a letter a column: `9` is a digit, `z` a digit or a leading blank, `.` a point.
type Picture = &'static str;

const NUMBER: Picture = "zzzzz";
const YEAR: Picture = "99";
const DAY_OF_YEAR: Picture = "999.99999999";
const DERIVATIVE: Picture = ".99999999";
const DEGREES: Picture = "zzz.9999";
const ECCENTRICITY: Picture = "9999999";
const MEAN_MOTION: Picture = "zz.99999999";

/// The number of all digits, as if there were no point; none of a text that is not written like the picture.
fn digits(text: &[u8], picture: Picture) -> Option<u64> {
    if text.len() != picture.len() {
        return None;
    }
    let mut number = None;
    for (letter, byte) in picture.bytes().zip(text) {
        match (letter, byte) {
            (b'.', b'.') => {}
            (b'z', b' ') if number.is_none() => {}
            (b'z' | b'9', b'0'..=b'9') => {
                number = Some(10 * number.unwrap_or(0) + u64::from(byte - b'0'));
            }
            _ => return None,
        }
    }
    Some(number.unwrap_or(0))
}

fn number(text: &[u8]) -> Option<u64> {
    digits(text, NUMBER)
}

/// 57 to 99 are in the last century.
fn year(text: &[u8]) -> Option<i64> {
    let of_century = digits(text, YEAR)? as i64;
    Some(if of_century >= 57 { 1900 + of_century } else { 2000 + of_century })
}

/// The days of a year from 1957 to 2056, of which every fourth has one more.
fn days_of(year: i64) -> i64 {
    if year % 4 == 0 {
        366
    } else {
        365
    }
}

/// A day in its year, in 10^-8 of a day: 1 is the first midnight, and the last day runs to its end.
fn day(text: &[u8], year: i64) -> Option<u64> {
    let day = digits(text, DAY_OF_YEAR)?;
    let whole = (day / 100_000_000) as i64;
    (1..=days_of(year)).contains(&whole).then_some(day)
}

/// In 10^-8 revolutions a day squared.
fn half_derivative(text: &[u8]) -> Option<i32> {
    let (sign, size) = text.split_first()?;
    let size = digits(size, DERIVATIVE)? as i32;
    match sign {
        b' ' | b'+' => Some(size),
        b'-' => Some(-size),
        _ => None,
    }
}

fn degrees(text: &[u8]) -> Option<Angle> {
    let ten_thousandths = digits(text, DEGREES)?;
    (ten_thousandths < 3_600_000).then(|| angle(ten_thousandths))
}

/// A line of the right length.
struct Line<'a> {
    bytes: &'a [u8; COLUMNS],
    /// The columns of a line that stands ahead of it.
    ahead: usize,
}

impl Line<'_> {
    /// Refusal 17.
    fn new(bytes: &[u8], number: u8, ahead: usize) -> Result<Line<'_>, Refusal> {
        let bytes: &[u8; COLUMNS] = bytes.try_into().map_err(|_| Refusal::Lines)?;
        if bytes[0] == number {
            Ok(Line { bytes, ahead })
        } else {
            Err(Refusal::Lines)
        }
    }

    /// Refusal 18.
    fn check_sum(&self) -> Result<(), Refusal> {
        let [counted @ .., checksum] = self.bytes;
        let sum: u32 = counted
            .iter()
            .map(|byte| match byte {
                b'0'..=b'9' => u32::from(byte - b'0'),
                b'-' => 1,
                _ => 0,
            })
            .sum();
        if char::from_digit(sum % 10, 10) == Some(char::from(*checksum)) {
            Ok(())
        } else {
            Err(Refusal::Checksum)
        }
    }

    /// What is read in some columns; refusal 19 where that is nothing.
    fn field<T>(
        &self,
        columns: RangeInclusive<usize>,
        read: impl FnOnce(&[u8]) -> Option<T>,
    ) -> Result<T, Refused> {
        let (first, last) = (*columns.start(), *columns.end());
        let place = (self.ahead + first) as u32;
        read(&self.bytes[first - 1..last]).ok_or(Refused { refusal: Refusal::Field, place })
    }
}

/// Days from 1990 Jan 0.0 to the same of a year.
fn days_to(year: i64) -> i64 {
    let later: i64 = (1990..year).map(days_of).sum();
    let earlier: i64 = (year..1990).map(days_of).sum();
    later - earlier
}

/// What `mean_motion` gives in `part` millionths of a second, down.
fn motion_in(mean_motion: u64, part: u64) -> u128 {
    // A turn in millionths of a second by 10^-8 revolutions a day.
    let turn = u128::from(DAY * SECOND) * 100_000_000;
    u128::from(mean_motion) * u128::from(part) * (1 << 32) / turn
}

/// Reads two-line elements, with the axis and rates that come beside them; refusals 17, 18, 19 at a field's first
/// column, which is 69 more on the second line, 20, then those of elements.
pub fn two_line(
    first: &[u8],
    second: &[u8],
    semi_major_axis: u32,
    node_rate: i32,
    perigee_rate: i32,
) -> Result<Elements, Refused> {
    let first = Line::new(first, b'1', 0)?;
    let second = Line::new(second, b'2', COLUMNS)?;
    first.check_sum()?;
    second.check_sum()?;

    let satellite = first.field(3..=7, number)?;
    let year = first.field(19..=20, year)?;
    let day = first.field(21..=32, |text| day(text, year))?;
    let half_mean_motion_derivative = first.field(34..=43, half_derivative)?;
    let satellite_again = second.field(3..=7, number)?;
    let inclination = second.field(9..=16, degrees)?;
    let node = second.field(18..=25, degrees)?;
    let eccentricity = second.field(27..=33, |text| digits(text, ECCENTRICITY))? as u32;
    let argument_of_perigee = second.field(35..=42, degrees)?;
    let mean_anomaly = second.field(44..=51, degrees)?;
    let mean_motion = second.field(53..=63, |text| digits(text, MEAN_MOTION))?;
    let revolution = second.field(64..=68, number)? as u32;
    if satellite != satellite_again {
        return Err(Refusal::SatelliteNumbers.into());
    }

    // 10^-8 of a day is 864 millionths of a second.
    let time = day * (DAY * SECOND / 100_000_000);
    let back = motion_in(mean_motion, time % SECOND);
    let from_node = mean_anomaly.wrapping_add(argument_of_perigee);
    let across_node = u128::from(from_node) < back;
    let elements = Elements {
        eccentricity,
        semi_major_axis,
        inclination,
        node,
        argument_of_perigee,
        mean_anomaly: mean_anomaly.wrapping_sub(back as u32),
        // One past 32 bits is refused with 5, and so is the last of them.
        mean_motion: u32::try_from(mean_motion).unwrap_or(u32::MAX),
        node_rate,
        perigee_rate,
        epoch_revolution: revolution.saturating_sub(u32::from(across_node)),
        epoch: days_to(year) * DAY as i64 + (time / SECOND) as i64,
        half_mean_motion_derivative,
    };
    elements.check()?;
    Ok(elements)
}
