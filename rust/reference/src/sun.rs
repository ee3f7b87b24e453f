//! The Sun of source document 001: its angles and its direction.

use crate::orbit::check_time;
use crate::refusal::Refusal;
use crate::sine::{angle, cosine, sine, Angle, HALF_TURN, ONE};

/// A direction, in units of 2^-30.
#[derive(Clone, Copy, Debug, PartialEq, Eq)]
pub struct Direction {
    pub x: i64,
    pub y: i64,
    pub z: i64,
}

/// The Sun at a time.
#[derive(Clone, Copy, Debug, PartialEq, Eq)]
pub struct Sun {
    /// MA.
    pub mean_anomaly: Angle,
    /// ML.
    pub mean_longitude: Angle,
    /// TL.
    pub true_longitude: Angle,
    /// GHAA, the Greenwich hour angle of Aries.
    pub greenwich_hour_angle: Angle,
    pub direction: Direction,
}

/// The part turn of 3125·t / `year`.
fn part_turn(time: i64, year: i64) -> Angle {
    let rest = (3125 * time).rem_euclid(year);
    ((rest as u128) << 32).div_euclid(year as u128) as u32
}

/// Sun at a time in the range of refusal 8.
pub(crate) fn sun_in_range(time: i64) -> Sun {
    let ma = angle(3_566_349).wrapping_add(part_turn(time, 98_620_103_151));
    let ml = angle(2_794_033).wrapping_add(part_turn(time, 98_615_393_676));
    let centre = i64::from(angle(19_151)) * sine(ma) / ONE
        + i64::from(angle(200)) * sine(ma.wrapping_mul(2)) / ONE;
    let tl = ml.wrapping_add(centre as u32);
    let of_day = (time.rem_euclid(86_400) << 32) / 86_400;
    let ghaa = ml.wrapping_sub(HALF_TURN).wrapping_add(of_day as u32);
    let obliquity = angle(234_406);
    Sun {
        mean_anomaly: ma,
        mean_longitude: ml,
        true_longitude: tl,
        greenwich_hour_angle: ghaa,
        direction: Direction {
            x: cosine(tl),
            y: sine(tl) * cosine(obliquity) / ONE,
            z: sine(tl) * sine(obliquity) / ONE,
        },
    }
}

/// Sun at `time`; refusal 8 for its range.
pub fn sun(time: i64) -> Result<Sun, Refusal> {
    check_time(time)?;
    Ok(sun_in_range(time))
}
