//! Samples and readings.

use std::fmt;

use crate::bytes::{f32_at, i64_at};

/// A telemetry record.
#[derive(Clone, Copy, Debug, PartialEq)]
pub struct Sample {
    /// Seconds from 1990 Jan 0.0.
    pub time: i64,
    /// The battery's volts; a NaN where they are missing.
    pub volts: f32,
    /// The battery's amperes; a NaN where they are missing.
    pub amperes: f32,
}

impl Sample {
    /// The bytes of a record.
    pub const SIZE: usize = 16;

    /// The record's bytes.
    pub fn to_bytes(&self) -> [u8; Sample::SIZE] {
        let mut bytes = [0; Sample::SIZE];
        bytes[..8].copy_from_slice(&self.time.to_le_bytes());
        bytes[8..12].copy_from_slice(&self.volts.to_le_bytes());
        bytes[12..].copy_from_slice(&self.amperes.to_le_bytes());
        bytes
    }

    /// The record of its bytes: any bytes are one.
    pub fn from_bytes(bytes: &[u8; Sample::SIZE]) -> Sample {
        Sample { time: i64_at(bytes, 0), volts: f32_at(bytes, 8), amperes: f32_at(bytes, 12) }
    }
}

/// What a record tells of the battery's power.
#[derive(Clone, Copy, Debug, PartialEq)]
pub enum Reading {
    /// Volts or amperes are missing.
    Missing,
    /// The watts, which are finite.
    Valid(f32),
    /// Volts, amperes or their product are infinite.
    Saturated,
}

impl Reading {
    /// The watts of a valid reading.
    pub fn watts(self) -> Option<f32> {
        match self {
            Reading::Valid(watts) => Some(watts),
            Reading::Missing | Reading::Saturated => None,
        }
    }

    /// The byte of a label.
    pub fn to_byte(self) -> u8 {
        match self {
            Reading::Missing => 0,
            Reading::Valid(_) => 1,
            Reading::Saturated => 2,
        }
    }

    /// The bits of the watts in a label, 0 where the reading is not valid.
    pub fn watts_bits(self) -> u32 {
        self.watts().map_or(0, f32::to_bits)
    }
}

impl fmt::Display for Reading {
    fn fmt(&self, f: &mut fmt::Formatter) -> fmt::Result {
        f.write_str(match self {
            Reading::Missing => "missing",
            Reading::Valid(_) => "valid",
            Reading::Saturated => "saturated",
        })
    }
}

#[cfg(test)]
mod tests {
    use super::*;

    /// A NaN's payload among them.
    #[test]
    fn bytes_read_back() {
        for bits in [0, 0x8000_0000, 1, 0x7f80_0000, 0x7fc0_0001, 0xffff_ffff] {
            let volts = f32::from_bits(bits);
            let sample = Sample { time: -86_400, volts, amperes: 1.5 };
            let bytes = sample.to_bytes();
            assert_eq!(Sample::from_bytes(&bytes).to_bytes(), bytes);
            assert_eq!(bytes[8..12], bits.to_le_bytes());
        }
    }

    #[test]
    fn watts_are_those_of_valid_readings_alone() {
        assert_eq!(Reading::Valid(-0.0).watts_bits(), 0x8000_0000);
        assert_eq!(Reading::Missing.watts_bits(), 0);
        assert_eq!(Reading::Saturated.watts(), None);
    }
}
