//! Orbital elements and their bytes.

use crate::bytes::{i32_at, i64_at, u32_at};
use crate::ffi;

/// Orbital elements. Any numbers can be held; which are refused is the table's question.
#[derive(Clone, Copy, Debug, PartialEq, Eq)]
pub struct Elements {
    /// In units of 10^-7.
    pub eccentricity: u32,
    /// In metres.
    pub semi_major_axis: u32,
    /// An angle, up to half a turn.
    pub inclination: u32,
    /// The right ascension of the ascending node at the epoch, an angle.
    pub node: u32,
    /// At the epoch, an angle.
    pub argument_of_perigee: u32,
    /// At the epoch, an angle.
    pub mean_anomaly: u32,
    /// At the epoch, in 10^-8 revolutions a day.
    pub mean_motion: u32,
    /// The drift of the node, in 10^-4 degree a day.
    pub node_rate: i32,
    /// The drift of the perigee, in 10^-4 degree a day.
    pub perigee_rate: i32,
    /// The number of the revolution at the epoch.
    pub epoch_revolution: u32,
    /// The time at which the other elements hold.
    pub epoch: i64,
    /// Half the first derivative of the mean motion, as two-line elements have it, in 10^-8
    /// revolutions a day squared.
    pub half_mean_motion_derivative: i32,
}

impl Elements {
    /// The bytes that the C interface takes.
    pub fn to_bytes(&self) -> [u8; ffi::ELEMENTS_BYTES] {
        let mut bytes = [0; ffi::ELEMENTS_BYTES];
        bytes[..8].copy_from_slice(&self.epoch.to_le_bytes());
        let words = [
            self.eccentricity,
            self.semi_major_axis,
            self.inclination,
            self.node,
            self.argument_of_perigee,
            self.mean_anomaly,
            self.mean_motion,
            self.node_rate as u32,
            self.perigee_rate as u32,
            self.epoch_revolution,
            self.half_mean_motion_derivative as u32,
        ];
        for (to, word) in bytes[8..].chunks_exact_mut(4).zip(words) {
            to.copy_from_slice(&word.to_le_bytes());
        }
        bytes
    }

    /// The elements of the bytes that the C interface takes and gives.
    pub fn from_bytes(bytes: &[u8; ffi::ELEMENTS_BYTES]) -> Elements {
        Elements {
            epoch: i64_at(bytes, 0),
            eccentricity: u32_at(bytes, 8),
            semi_major_axis: u32_at(bytes, 12),
            inclination: u32_at(bytes, 16),
            node: u32_at(bytes, 20),
            argument_of_perigee: u32_at(bytes, 24),
            mean_anomaly: u32_at(bytes, 28),
            mean_motion: u32_at(bytes, 32),
            node_rate: i32_at(bytes, 36),
            perigee_rate: i32_at(bytes, 40),
            epoch_revolution: u32_at(bytes, 44),
            half_mean_motion_derivative: i32_at(bytes, 48),
        }
    }
}

#[cfg(test)]
mod tests {
    use super::*;

    /// Every byte in its own place, so that two fields swapped would show.
    #[test]
    fn bytes_read_back() {
        let bytes: [u8; ffi::ELEMENTS_BYTES] = std::array::from_fn(|at| 200 + at as u8);
        let elements = Elements::from_bytes(&bytes);
        assert_eq!(elements.to_bytes(), bytes);
        assert_eq!(elements.eccentricity, u32::from_le_bytes([208, 209, 210, 211]));
        let derivative = i32::from_le_bytes([248, 249, 250, 251]);
        assert_eq!(elements.half_mean_motion_derivative, derivative);
        assert!(elements.node_rate < 0 && elements.perigee_rate < 0 && elements.epoch < 0);
    }
}
