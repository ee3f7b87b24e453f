//! The sine and the cosine.

use crate::ffi;

/// The sine of an angle, in units of 2^-30.
pub fn sine(angle: u32) -> i64 {
    // SAFETY: numbers only.
    unsafe { ffi::yurdelmiz_sine(angle) }
}

/// The cosine of an angle, in units of 2^-30.
pub fn cosine(angle: u32) -> i64 {
    // SAFETY: numbers only.
    unsafe { ffi::yurdelmiz_cosine(angle) }
}
