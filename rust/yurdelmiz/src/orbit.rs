//! From elements to position.

use crate::bytes::{i32_at, i64_at, u32_at};
use crate::elements::Elements;
use crate::ffi;
use crate::kepler::EccentricAnomaly;
use crate::refusal::{self, Refusal};

/// A point, in metres from the Earth's centre.
#[derive(Clone, Copy, Debug, PartialEq, Eq)]
pub struct Position {
    /// In the equator's plane: toward the vernal equinox, or Earth-fixed toward Greenwich.
    pub x: i64,
    /// In the equator's plane, a quarter turn to the east of `x`.
    pub y: i64,
    /// Toward the north pole.
    pub z: i64,
}

/// Where the satellite is at a time.
#[derive(Clone, Copy, Debug, PartialEq, Eq)]
pub struct State {
    /// The number of the revolution, counted from the mean ascending node: it turns where the mean
    /// anomaly and the argument of perigee together pass a whole turn, not at the true crossing.
    pub revolution: i32,
    /// The eccentric anomaly, with its halvings.
    pub anomaly: EccentricAnomaly,
    /// Distance from the Earth's centre, in metres.
    pub radius: u32,
    /// The celestial position.
    pub celestial: Position,
    /// The node as drifted.
    pub node: u32,
    /// The position that turns with the Earth.
    pub earth_fixed: Position,
}

/// The satellite at a time; refusals 1 to 8 and 16.
pub fn position(elements: &Elements, time: i64) -> Result<State, Refusal> {
    let elements = elements.to_bytes();
    let mut answer = [0; ffi::POSITION_BYTES];
    // SAFETY: the slices are `elements` and `answer`.
    let status = unsafe {
        ffi::yurdelmiz_position(
            elements.as_ptr(),
            elements.len(),
            time,
            answer.as_mut_ptr(),
            answer.len(),
        )
    };
    refusal::check(status)?;
    let position = |at| Position {
        x: i64_at(&answer, at),
        y: i64_at(&answer, at + 8),
        z: i64_at(&answer, at + 16),
    };
    Ok(State {
        revolution: i32_at(&answer, 0),
        anomaly: EccentricAnomaly { angle: u32_at(&answer, 4), halvings: u32_at(&answer, 8) },
        radius: u32_at(&answer, 12),
        celestial: position(16),
        node: u32_at(&answer, 40),
        earth_fixed: position(44),
    })
}
