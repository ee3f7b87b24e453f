//! The proved square root by itself, as tests/square_root/archive compiles it.

extern "C" {
    fn integer_square_root(n: u64) -> u64;
}

/// The whole square root, down.
pub fn square_root(n: u64) -> u64 {
    // SAFETY: numbers in, a number out, and no `requires`.
    unsafe { integer_square_root(n) }
}
