//! Salvage: the labels that a damaged file begins with, as a label file.

use crate::bytes::{u32_at, u64_at};
use crate::ffi;
use crate::label::Label;
use crate::label_file::LabelFile;
use crate::refusal::{self, Refusal};
use crate::trailer::Form;

/// What was kept of a damaged file.
#[derive(Clone, Copy, Debug, PartialEq, Eq)]
pub struct Salvaged {
    /// The labels kept.
    pub labels: u32,
    /// The bytes behind them, which were dropped.
    pub dropped: u64,
}

impl Salvaged {
    /// The most bytes that can be kept, those of 1,024 labels. What lies behind them in a longer input is
    /// dropped, whatever it is.
    pub const MOST_BYTES: usize = LabelFile::MOST_LABELS * Label::SIZE;

    fn at(answer: &[u8; ffi::SALVAGE_BYTES]) -> Salvaged {
        Salvaged { labels: u32_at(answer, 0), dropped: u64_at(answer, 4) }
    }
}

/// Keeps the labels at the start of `bytes`, which begin with the first label of a file: each whole 24 bytes,
/// in order, up to the first that break a field rule, to the end, or to 1,024. They go to the start of `output`,
/// the trailer of 24 bytes with their counts behind them, and [`read`] accepts that file. A trailer that `bytes`
/// have is taken as any other bytes. Refusal 11, where `output` is too short for the labels kept.
///
/// On a refusal `output` is unchanged; behind the trailer it always is.
///
/// [`read`]: crate::read
pub fn salvage(bytes: &[u8], output: &mut [u8]) -> Result<Salvaged, Refusal> {
    let mut answer = [0; ffi::SALVAGE_BYTES];
    // SAFETY: the slices are `bytes`, `output`, which is borrowed alone, and `answer`.
    let status = unsafe {
        ffi::yurdelmiz_salvage(
            bytes.as_ptr(),
            bytes.len(),
            output.as_mut_ptr(),
            output.len(),
            answer.as_mut_ptr(),
            answer.len(),
        )
    };
    refusal::check(status)?;
    Ok(Salvaged::at(&answer))
}

/// The label file that is left of a damaged one, whole. It has the room that it needs, so it is not refused.
pub fn salvage_to_vec(bytes: &[u8]) -> (Vec<u8>, Salvaged) {
    let most = (bytes.len() / Label::SIZE).min(LabelFile::MOST_LABELS);
    let mut file = vec![0; Form::WRITTEN.distance(most)];
    let salvaged = salvage(bytes, &mut file).expect("room for every whole label");
    file.truncate(Form::WRITTEN.distance(salvaged.labels as usize));
    (file, salvaged)
}

#[cfg(test)]
mod tests {
    use super::*;

    #[test]
    fn every_byte_of_an_answer() {
        let answer = [1, 2, 3, 4, 5, 6, 7, 8, 9, 10, 11, 12];
        let salvaged = Salvaged { labels: 0x0403_0201, dropped: 0x0c0b_0a09_0807_0605 };
        assert_eq!(Salvaged::at(&answer), salvaged);
    }

    #[test]
    fn the_most_bytes() {
        assert_eq!(Salvaged::MOST_BYTES, 24_576);
    }
}
