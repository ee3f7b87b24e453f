//! The 89 bytes in which the C interface keeps the state of a day, by include/yurdelmiz.h.

use crate::orbit::Elements;
use crate::packets::Day;
use crate::trailer::Counts;

/// Bytes of the elements that the state begins with.
pub const ELEMENTS_BYTES: usize = 52;

/// Bytes of the state.
pub const DAY_BYTES: usize = 89;

/// Where the state has the counts, whether it is closed, how many bytes it holds, and those.
const COUNTS: usize = 52;
const CLOSED: usize = 72;
const HAVE: usize = 73;
const HELD: usize = 74;

/// The bytes of elements.
pub fn elements_to_bytes(elements: &Elements) -> [u8; ELEMENTS_BYTES] {
    let Elements {
        eccentricity,
        semi_major_axis,
        inclination,
        node,
        argument_of_perigee,
        mean_anomaly,
        mean_motion,
        node_rate,
        perigee_rate,
        epoch_revolution,
        epoch,
        half_mean_motion_derivative,
    } = *elements;
    let words = [
        eccentricity.to_le_bytes(),
        semi_major_axis.to_le_bytes(),
        inclination.to_le_bytes(),
        node.to_le_bytes(),
        argument_of_perigee.to_le_bytes(),
        mean_anomaly.to_le_bytes(),
        mean_motion.to_le_bytes(),
        node_rate.to_le_bytes(),
        perigee_rate.to_le_bytes(),
        epoch_revolution.to_le_bytes(),
        half_mean_motion_derivative.to_le_bytes(),
    ];
    [&epoch.to_le_bytes()[..], &words.concat()].concat().try_into().expect("52 bytes")
}

/// The elements of their bytes.
pub fn elements_of_bytes(bytes: &[u8; ELEMENTS_BYTES]) -> Elements {
    let word = |at: usize| [bytes[at], bytes[at + 1], bytes[at + 2], bytes[at + 3]];
    let (unsigned, signed) =
        (|at: usize| u32::from_le_bytes(word(at)), |at: usize| i32::from_le_bytes(word(at)));
    Elements {
        epoch: i64::from(signed(4)) << 32 | i64::from(unsigned(0)),
        eccentricity: unsigned(8),
        semi_major_axis: unsigned(12),
        inclination: unsigned(16),
        node: unsigned(20),
        argument_of_perigee: unsigned(24),
        mean_anomaly: unsigned(28),
        mean_motion: unsigned(32),
        node_rate: signed(36),
        perigee_rate: signed(40),
        epoch_revolution: unsigned(44),
        half_mean_motion_derivative: signed(48),
    }
}

impl Day {
    /// The bytes of the state.
    pub fn to_bytes(&self) -> [u8; DAY_BYTES] {
        let mut bytes = [0; DAY_BYTES];
        bytes[..COUNTS].copy_from_slice(&elements_to_bytes(&self.elements));
        let counts = self.counts.words().map(u32::to_le_bytes).concat();
        bytes[COUNTS..CLOSED].copy_from_slice(&counts);
        bytes[CLOSED] = u8::from(self.closed);
        bytes[HAVE] = self.have;
        bytes[HELD..].copy_from_slice(&self.held);
        bytes
    }

    /// The state of its bytes. A byte that is neither 0 nor 1 stands for closed, for 24 refuses both.
    pub fn from_bytes(bytes: &[u8; DAY_BYTES]) -> Day {
        let elements: &[u8; ELEMENTS_BYTES] = bytes[..COUNTS].try_into().expect("52 bytes");
        let counts = [0, 4, 8, 12, 16].map(|at| {
            let at = COUNTS + at;
            u32::from_le_bytes(bytes[at..at + 4].try_into().expect("4 bytes"))
        });
        Day {
            elements: elements_of_bytes(elements),
            closed: bytes[CLOSED] != 0,
            have: bytes[HAVE],
            held: bytes[HELD..].try_into().expect("15 bytes"),
            counts: Counts::of_words(counts),
        }
    }
}
