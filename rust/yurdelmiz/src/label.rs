//! Labels, their sides and their bytes.

use std::fmt;

use crate::bytes::{f32_at, i32_at, i64_at, u32_at};
use crate::eclipse::Shade;
use crate::telemetry::Reading;
use crate::unknown_byte::UnknownByte;

/// What a label is for.
#[derive(Clone, Copy, Debug, PartialEq, Eq, Hash)]
pub enum Side {
    /// For neither.
    Withheld,
    /// For training the model.
    Training,
    /// For testing it.
    Test,
}

impl Side {
    /// Every side, in the order of their bytes.
    pub const ALL: [Side; 3] = [Side::Withheld, Side::Training, Side::Test];

    /// The byte of a label.
    pub fn to_byte(self) -> u8 {
        match self {
            Side::Withheld => 0,
            Side::Training => 1,
            Side::Test => 2,
        }
    }
}

impl TryFrom<u8> for Side {
    type Error = UnknownByte;

    fn try_from(byte: u8) -> Result<Side, UnknownByte> {
        let known = Side::ALL.into_iter().find(|side| side.to_byte() == byte);
        known.ok_or(UnknownByte { field: "side", byte })
    }
}

impl fmt::Display for Side {
    fn fmt(&self, f: &mut fmt::Formatter) -> fmt::Result {
        f.write_str(match self {
            Side::Withheld => "withheld",
            Side::Training => "training",
            Side::Test => "test",
        })
    }
}

/// A label of an accepted file.
#[derive(Clone, Copy, Debug, PartialEq)]
pub struct Label {
    /// The record's time.
    pub time: i64,
    /// The number of the revolution, counted from the mean ascending node.
    pub revolution: i32,
    /// The side of the revolution.
    pub side: Side,
    /// Sunlight, umbra or penumbra.
    pub shade: Shade,
    /// The reading, with its watts where it is valid.
    pub reading: Reading,
    /// The sine of the Sun's elevation above the orbit plane, in units of 2^-30.
    pub elevation: i32,
}

impl Label {
    /// The bytes of a label.
    pub const SIZE: usize = 24;

    /// The label's bytes, as a file has them.
    pub fn to_bytes(&self) -> [u8; Label::SIZE] {
        let mut bytes = [0; Label::SIZE];
        bytes[..8].copy_from_slice(&self.time.to_le_bytes());
        bytes[8..12].copy_from_slice(&self.revolution.to_le_bytes());
        bytes[12] = self.side.to_byte();
        bytes[13] = self.shade.to_byte();
        bytes[14] = self.reading.to_byte();
        bytes[16..20].copy_from_slice(&self.elevation.to_le_bytes());
        bytes[20..].copy_from_slice(&self.reading.watts_bits().to_le_bytes());
        bytes
    }

    /// The label of bytes that the proved reader accepted.
    pub(crate) fn from_accepted(bytes: &[u8]) -> Label {
        let reading = match (bytes[14], u32_at(bytes, 20)) {
            (0, 0) => Reading::Missing,
            (1, _) => Reading::Valid(f32_at(bytes, 20)),
            (2, 0) => Reading::Saturated,
            other => unreachable!("an accepted label with the reading {other:?}"),
        };
        Label {
            time: i64_at(bytes, 0),
            revolution: i32_at(bytes, 8),
            side: Side::try_from(bytes[12]).expect("an accepted side"),
            shade: Shade::try_from(bytes[13]).expect("an accepted shade"),
            reading,
            elevation: i32_at(bytes, 16),
        }
    }
}

#[cfg(test)]
mod tests {
    use super::*;

    #[test]
    fn no_unknown_byte_is_a_side_or_a_shade() {
        for byte in 0..=255 {
            assert_eq!(Side::try_from(byte).is_ok(), byte < 3);
            assert_eq!(Shade::try_from(byte).is_ok(), byte < 3);
            if let Ok(side) = Side::try_from(byte) {
                assert_eq!(side.to_byte(), byte);
            }
            if let Ok(shade) = Shade::try_from(byte) {
                assert_eq!(shade.to_byte(), byte);
            }
        }
        assert_eq!(Side::try_from(3).unwrap_err().to_string(), "side 3 is not known");
        assert_eq!(Shade::try_from(3).unwrap_err().to_string(), "shade 3 is not known");
    }
}
