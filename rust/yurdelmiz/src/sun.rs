//! The Sun's angles and its direction.

use crate::bytes::{i32_at, u32_at};
use crate::ffi;
use crate::refusal::{self, Refusal};

/// A direction, in units of 2^-30.
#[derive(Clone, Copy, Debug, PartialEq, Eq)]
pub struct Direction {
    /// Toward the vernal equinox.
    pub x: i64,
    /// In the equator's plane, a quarter turn to the east of `x`.
    pub y: i64,
    /// Toward the north pole.
    pub z: i64,
}

/// The Sun at a time.
#[derive(Clone, Copy, Debug, PartialEq, Eq)]
pub struct Sun {
    /// MA.
    pub mean_anomaly: u32,
    /// ML.
    pub mean_longitude: u32,
    /// TL.
    pub true_longitude: u32,
    /// GHAA, the Greenwich hour angle of Aries.
    pub greenwich_hour_angle: u32,
    /// Where the Sun stands.
    pub direction: Direction,
}

/// The Sun at a time; refusal 8, for the range of times.
pub fn sun(time: i64) -> Result<Sun, Refusal> {
    let mut answer = [0; ffi::SUN_BYTES];
    // SAFETY: the slice is `answer`.
    let status = unsafe { ffi::yurdelmiz_sun(time, answer.as_mut_ptr(), answer.len()) };
    refusal::check(status)?;
    let component = |at| i64::from(i32_at(&answer, at));
    Ok(Sun {
        mean_anomaly: u32_at(&answer, 0),
        mean_longitude: u32_at(&answer, 4),
        true_longitude: u32_at(&answer, 8),
        greenwich_hour_angle: u32_at(&answer, 12),
        direction: Direction { x: component(16), y: component(20), z: component(24) },
    })
}
