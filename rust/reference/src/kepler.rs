//! Kepler's equation, solved by halving.

use crate::refusal::Refusal;
use crate::sine::{sine, Angle};

/// The unit of eccentricity: this many make 1.
pub const ECCENTRICITY_ONE: u32 = 10_000_000;

/// The greatest eccentricity accepted.
pub const ECCENTRICITY_MAX: u32 = 9_000_000;

const TURN: i64 = 1 << 32;

/// An eccentric anomaly and the number of halvings that found it.
#[derive(Clone, Copy, Debug, PartialEq, Eq)]
pub struct EccentricAnomaly {
    pub angle: Angle,
    /// 32, or 0 for a circular orbit.
    pub halvings: u32,
}

/// k(E): the mean anomaly of the eccentric anomaly `anomaly`, from 0 to a whole turn.
pub fn mean_anomaly_of(eccentricity: u32, anomaly: i64) -> i64 {
    // The wrap at a whole turn is harmless: S is 0 there.
    let s = sine(anomaly as u32);
    let g = i64::from(eccentricity) * s.abs() / i64::from(ECCENTRICITY_ONE);
    let h = g * 683_565_276 / (1 << 30);
    anomaly - h * s.signum()
}

/// The lower end after 32 halvings of the whole turn.
fn halve(eccentricity: u32, mean_anomaly: i64) -> i64 {
    let (mut lower, mut upper) = (0, TURN);
    for _ in 0..32 {
        let middle = (lower + upper) / 2;
        if mean_anomaly_of(eccentricity, middle) <= mean_anomaly {
            lower = middle;
        } else {
            upper = middle;
        }
    }
    lower
}

/// The eccentric anomaly of a mean anomaly; refusal 1.
pub fn solve(eccentricity: u32, mean_anomaly: Angle) -> Result<EccentricAnomaly, Refusal> {
    if eccentricity > ECCENTRICITY_MAX {
        return Err(Refusal::Eccentricity);
    }
    if eccentricity == 0 {
        return Ok(EccentricAnomaly { angle: mean_anomaly, halvings: 0 });
    }
    let found = halve(eccentricity, i64::from(mean_anomaly));
    Ok(EccentricAnomaly { angle: found as u32, halvings: 32 })
}
