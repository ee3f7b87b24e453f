//! The Earth's shadow.

use std::fmt;

use crate::ffi;
use crate::orbit::Position;
use crate::refusal::{self, Refusal};
use crate::sun::Direction;
use crate::unknown_byte::UnknownByte;

/// Where a satellite is in the Earth's shadow.
#[derive(Clone, Copy, Debug, PartialEq, Eq, Hash)]
pub enum Shade {
    /// In sunlight: outside umbra and penumbra.
    Lit,
    /// In the umbra: the Earth hides the whole Sun.
    Dark,
    /// In the penumbra: the Earth hides a part of the Sun.
    Part,
}

impl Shade {
    /// Every shade, in the order of their bytes.
    pub const ALL: [Shade; 3] = [Shade::Lit, Shade::Dark, Shade::Part];

    /// The byte of a label.
    pub fn to_byte(self) -> u8 {
        match self {
            Shade::Lit => 0,
            Shade::Dark => 1,
            Shade::Part => 2,
        }
    }
}

impl TryFrom<u8> for Shade {
    type Error = UnknownByte;

    fn try_from(byte: u8) -> Result<Shade, UnknownByte> {
        let known = Shade::ALL.into_iter().find(|shade| shade.to_byte() == byte);
        known.ok_or(UnknownByte { field: "shade", byte })
    }
}

impl fmt::Display for Shade {
    fn fmt(&self, f: &mut fmt::Formatter) -> fmt::Result {
        f.write_str(match self {
            Shade::Lit => "lit",
            Shade::Dark => "dark",
            Shade::Part => "part",
        })
    }
}

/// The shade test; refusal 14.
pub fn shade(position: Position, sun: Direction) -> Result<Shade, Refusal> {
    let mut answer = [0; ffi::SHADE_BYTES];
    // SAFETY: the slice is `answer`.
    let status = unsafe {
        ffi::yurdelmiz_shade(
            position.x,
            position.y,
            position.z,
            sun.x,
            sun.y,
            sun.z,
            answer.as_mut_ptr(),
            answer.len(),
        )
    };
    refusal::check(status)?;
    Ok(Shade::try_from(answer[0]).expect("a shade of the C interface"))
}

#[cfg(test)]
mod tests {
    use super::*;

    const ONE: i64 = 1 << 30;

    fn shade_at(x: i64, y: i64) -> Result<Shade, Refusal> {
        shade(Position { x, y, z: 0 }, Direction { x: ONE, y: 0, z: 0 })
    }

    /// Document 01's rows.
    #[test]
    fn umbra_and_penumbra() {
        assert_eq!(shade_at(-42_164_000, 6_183_633), Ok(Shade::Dark));
        assert_eq!(shade_at(-42_164_000, 6_183_634), Ok(Shade::Part));
        assert_eq!(shade_at(-42_164_000, 6_575_960), Ok(Shade::Part));
        assert_eq!(shade_at(-42_164_000, 6_575_961), Ok(Shade::Lit));
        assert_eq!(shade_at(42_164_000, 0), Ok(Shade::Lit));
        assert_eq!(shade_at(-200_000_001, 0), Err(Refusal::Component));
    }

    #[test]
    fn bytes_and_words() {
        let words = [(0, "lit"), (1, "dark"), (2, "part")];
        for (shade, (byte, word)) in Shade::ALL.into_iter().zip(words) {
            assert_eq!((shade.to_byte(), &*shade.to_string()), (byte, word));
        }
    }
}
