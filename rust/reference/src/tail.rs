//! The tail of a file: its last bytes, which with its length tell the dark test labels without the file.

use crate::refusal::Refusal;
use crate::trailer::Trailer;

/// The most bytes of a tail. A file that has fewer is its own tail.
pub const TAIL_BYTES: usize = 24;

/// The dark test labels that a file of `length` bytes stores, or none where its trailer has 16 bytes and
/// does not hold them; refusal 12, of a tail too that is shorter or longer than that of such a file.
pub fn dark_test(tail: &[u8], length: u64) -> Result<Option<u32>, Refusal> {
    if tail.len() as u64 != length.min(TAIL_BYTES as u64) {
        return Err(Refusal::Trailer);
    }
    let trailer = Trailer::of(tail, length).ok_or(Refusal::Trailer)?;
    Ok(trailer.dark_test())
}
