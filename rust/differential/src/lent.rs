//! Buffers that are lent to a call, between guards.

/// Bytes on both sides of a buffer, more than a row of element sets has.
const GUARD: usize = 64;
const GUARD_BYTE: u8 = 0xd5;

/// A buffer between guards.
pub struct Lent(Vec<u8>);

impl Lent {
    pub fn new(bytes: &[u8]) -> Lent {
        let guard = [GUARD_BYTE; GUARD];
        Lent([&guard[..], bytes, &guard].concat())
    }

    pub fn bytes(&mut self) -> &mut [u8] {
        let end = self.0.len() - GUARD;
        &mut self.0[GUARD..end]
    }

    pub fn guarded(&self) -> bool {
        let (ahead, behind) = (&self.0[..GUARD], &self.0[self.0.len() - GUARD..]);
        [ahead, behind].concat().iter().all(|byte| *byte == GUARD_BYTE)
    }
}
