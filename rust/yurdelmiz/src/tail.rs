//! The tail of a label file: its last bytes, which tell the dark test labels without the file.

use crate::bytes::u32_at;
use crate::ffi;
use crate::refusal::{self, Refusal};

/// The dark test labels of a label file of `size` bytes, by its last [`LabelFile::TAIL`] bytes, or all where
/// it has fewer. None where the trailer is the one of 16 bytes, which does not hold the figure. Refusal 12 for
/// the files to which [`read`] gives it, and where `tail` has another length.
///
/// The labels are not looked at: the figure is the one that the trailer states. Of a file that [`read`] accepts
/// it is that of the labels.
///
/// [`LabelFile::TAIL`]: crate::LabelFile::TAIL
/// [`read`]: crate::read
pub fn dark_test(tail: &[u8], size: u64) -> Result<Option<u32>, Refusal> {
    let mut answer = [0; ffi::DARK_TEST_BYTES];
    // SAFETY: the slices are `tail` and `answer`.
    let status = unsafe {
        ffi::yurdelmiz_dark_test(tail.as_ptr(), tail.len(), size, answer.as_mut_ptr(), answer.len())
    };
    refusal::check(status)?;
    Ok(match u32_at(&answer, 0) {
        ffi::NOT_HELD => None,
        figure => Some(figure),
    })
}
