//! Kepler's equation.

use crate::bytes::u32_at;
use crate::ffi;
use crate::refusal::{self, Refusal};

/// An eccentric anomaly and how it was found.
#[derive(Clone, Copy, Debug, PartialEq, Eq)]
pub struct EccentricAnomaly {
    /// The anomaly, as an angle.
    pub angle: u32,
    /// The number of halvings made, 32 or 0.
    pub halvings: u32,
}

/// Solves Kepler's equation for a mean anomaly; refusal 1.
pub fn kepler(eccentricity: u32, mean_anomaly: u32) -> Result<EccentricAnomaly, Refusal> {
    let mut answer = [0; ffi::KEPLER_BYTES];
    // SAFETY: the slice is `answer`.
    let status = unsafe {
        ffi::yurdelmiz_kepler(eccentricity, mean_anomaly, answer.as_mut_ptr(), answer.len())
    };
    refusal::check(status)?;
    Ok(EccentricAnomaly { angle: u32_at(&answer, 0), halvings: u32_at(&answer, 4) })
}
