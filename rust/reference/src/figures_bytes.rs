//! The 48 bytes in which the C interface keeps scale figures, by include/yurdelmiz.h.

use crate::scale::Figures;

/// Bytes of the figures.
pub const FIGURES_BYTES: usize = 48;

/// An extreme's two numbers: 1 and its bits where it is held, else 0 and 0.
fn extreme_to_words(extreme: Option<f32>) -> [u32; 2] {
    match extreme {
        Some(watts) => [1, watts.to_bits()],
        None => [0, 0],
    }
}

/// Any number but 0 stands for held; the bits behind a 0 are not looked at.
fn extreme_of_words([held, bits]: [u32; 2]) -> Option<f32> {
    (held != 0).then_some(f32::from_bits(bits))
}

impl Figures {
    /// The bytes of the figures.
    pub fn to_bytes(&self) -> [u8; FIGURES_BYTES] {
        let Figures { files, labels, dark, valid, least, greatest, sines, squares } = *self;
        let counts = [files, labels, dark, valid].map(u32::to_le_bytes).concat();
        let extremes = [least, greatest].map(extreme_to_words).concat();
        let extremes: Vec<u8> = extremes.into_iter().flat_map(u32::to_le_bytes).collect();
        let totals = [sines.to_le_bytes(), squares.to_le_bytes()].concat();
        [counts, extremes, totals].concat().try_into().expect("48 bytes")
    }

    /// The figures of their bytes.
    pub fn from_bytes(bytes: &[u8; FIGURES_BYTES]) -> Figures {
        let word = |at: usize| u32::from_le_bytes(bytes[at..at + 4].try_into().expect("4 bytes"));
        let long = |at: usize| u64::from_le_bytes(bytes[at..at + 8].try_into().expect("8 bytes"));
        Figures {
            files: word(0),
            labels: word(4),
            dark: word(8),
            valid: word(12),
            least: extreme_of_words([word(16), word(20)]),
            greatest: extreme_of_words([word(24), word(28)]),
            sines: long(32) as i64,
            squares: long(40),
        }
    }
}
