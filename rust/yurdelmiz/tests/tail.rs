//! The tail of a label file: the figure, what is refused, the reader on the same files, and the bytes of the
//! answer.

mod common;

use common::{day, telemetry, with_16_bytes, OSCAR_10};
use yurdelmiz::{dark_test, ffi, label_to_vec, read, Counts, Form, LabelFile, Refusal, Refused};

const REFUSED_12: Result<Option<u32>, Refusal> = Err(Refusal::Trailer);

/// The last bytes of a file, or all.
fn tail_of(file: &[u8]) -> &[u8] {
    &file[file.len().saturating_sub(LabelFile::TAIL)..]
}

/// What the tail of a whole file says.
fn asked(file: &[u8]) -> Result<Option<u32>, Refusal> {
    dark_test(tail_of(file), file.len() as u64)
}

/// The bytes of a trailer.
fn words<const N: usize>(numbers: [u32; N]) -> Vec<u8> {
    numbers.map(u32::to_le_bytes).concat()
}

#[test]
fn the_figure_is_that_of_the_labels() {
    let file = label_to_vec(&OSCAR_10, &day()).unwrap();
    let (counts, _) = read(&file, file.len()).unwrap();
    let Counts { labels, training, test, dark, dark_test } = counts;
    assert!(dark_test > 0 && ![labels, training, test, dark].contains(&dark_test), "{counts:?}");
    for ahead in [0, 1, 8, 1_000] {
        let with = |file: &[u8]| [vec![7; ahead], file.to_vec()].concat();
        assert_eq!(asked(&with(&file)), Ok(Some(dark_test)));
        assert_eq!(asked(&with(&with_16_bytes(&file))), Ok(None));
    }
    // 0 is held too.
    let empty = label_to_vec(&OSCAR_10, &[]).unwrap();
    assert_eq!(asked(&empty), Ok(Some(0)));
    assert_eq!(asked(&with_16_bytes(&empty)), Ok(None));
}

/// The greatest figure, and each bound of 12 by one beyond it.
#[test]
fn bounds_of_the_counts() {
    let said = |numbers| dark_test(&words(numbers), LabelFile::LONGEST as u64);
    let most = [1_024, 0, 1_024, 1_024, 1_024, 24_600];
    assert_eq!(said(most), Ok(Some(1_024)));
    for beyond in [
        [1_025, 0, 1_024, 1_024, 1_024, 24_624],
        [1_024, 1, 1_024, 1_024, 1_024, 24_600],
        [1_024, u32::MAX, 1_024, 1_024, 1_024, 24_600],
        [1_024, 0, 1_024, 1_025, 1_024, 24_600],
        [1_024, 0, 1_023, 1_024, 1_024, 24_600],
        [1_024, 0, 1_024, 1_023, 1_024, 24_600],
        [1_024, 0, 1_024, 1_024, u32::MAX, 24_600],
        [1_024, 0, 1_024, 1_024, 1_024, 24_592],
        [1_024, 0, 1_024, 1_024, 1_024, 24_599],
    ] {
        assert_eq!(said(beyond), REFUSED_12, "{beyond:?}");
    }
}

/// 16 to 23 bytes are all of a file.
#[test]
fn files_shorter_than_a_tail() {
    for ahead in 0..30 {
        let file = [vec![7; ahead], words([0, 0, 0, 16])].concat();
        assert_eq!(asked(&file), Ok(None), "{ahead} bytes ahead");
    }
    for trailer in [words([0, 0, 0, 16]), words([0, 0, 0, 0, 0, 24])] {
        for size in 0..trailer.len() {
            assert_eq!(asked(&trailer[trailer.len() - size..]), REFUSED_12, "{size} bytes");
        }
    }
}

/// No other number of bytes is taken, and no distance over the size, which may have 64 bits.
#[test]
fn bytes_and_sizes() {
    let file = label_to_vec(&OSCAR_10, &telemetry(&[0, 60])).unwrap();
    for (file, said) in [(with_16_bytes(&file), None), (file, Some(0))] {
        let size = file.len() as u64;
        for given in 0..=file.len() {
            let told = dark_test(&file[file.len() - given..], size);
            assert_eq!(told, if given == 24 { Ok(said) } else { REFUSED_12 }, "{given} bytes");
        }
        let more = [tail_of(&file), &[0]].concat();
        assert_eq!(dark_test(&more, size), REFUSED_12, "more than the right bytes");
        for short in [0, 16, 23, 24, 48, size - 1] {
            assert_eq!(dark_test(tail_of(&file), short), REFUSED_12, "a size of {short}");
        }
        for long in [size, size + 1, 1 << 32, (1 << 32) + 1, 1 << 63, u64::MAX] {
            assert_eq!(dark_test(tail_of(&file), long), Ok(said), "a size of {long}");
        }
    }
}

/// Every bit of the trailer changed, and the file cut anywhere: 12 of the reader is 12 of the tail, and what
/// the reader accepts has the figure of its labels.
#[test]
fn the_reader_on_the_same_files() {
    let sound = label_to_vec(&OSCAR_10, &day()[..16 * 40]).unwrap();
    for sound in [with_16_bytes(&sound), sound] {
        let size = sound.len();
        let changed = (8 * (size - 24)..8 * size).map(|bit| {
            let mut file = sound.clone();
            file[bit / 8] ^= 1 << (bit % 8);
            file
        });
        let starts = (0..=size).step_by(5).map(|from| sound[from..].to_vec());
        let ends = (0..size).step_by(5).map(|to| sound[..to].to_vec());
        let (mut refused_12, mut refused_13, mut accepted) = (0, 0, 0);
        for file in changed.chain(starts).chain(ends) {
            match read(&file, file.len()) {
                Err(Refused { refusal: Refusal::Trailer, .. }) => {
                    refused_12 += 1;
                    assert_eq!(asked(&file), REFUSED_12);
                }
                Err(_) => {
                    refused_13 += 1;
                    assert!(asked(&file).is_ok());
                }
                Ok((counts, form)) => {
                    accepted += 1;
                    let held = (form == Form::Bytes24).then_some(counts.dark_test);
                    assert_eq!(asked(&file), Ok(held));
                }
            }
        }
        assert!(refused_12 > 100 && refused_13 > 5 && accepted > 0);
    }
}

/// The call itself: its status, and the answer of so many bytes, which was filled with 7.
fn call(tail: &[u8], size: u64, answer_len: usize) -> (u32, [u8; 8]) {
    let mut answer = [7; 8];
    // SAFETY: the slices are `tail` and the start of `answer`.
    let status = unsafe {
        let answer = answer.as_mut_ptr();
        ffi::yurdelmiz_dark_test(tail.as_ptr(), tail.len(), size, answer, answer_len)
    };
    (status, answer)
}

/// Four bytes are written, or none.
#[test]
fn bytes_of_the_answer() {
    let held = words([300, 0, 300, 300, 258, 7_224]);
    assert_eq!(call(&held, 7_224, 4), (0, [2, 1, 0, 0, 7, 7, 7, 7]));
    let not_held = words([0, 0, 300, 0, 0, 7_216]);
    assert_eq!(ffi::NOT_HELD.to_le_bytes(), [255; 4]);
    assert_eq!(call(&not_held, 7_216, 4), (0, [255, 255, 255, 255, 7, 7, 7, 7]));
    let refused = Refusal::Trailer.number();
    assert_eq!(call(&held, 7_223, 4), (refused, [7; 8]));
    assert_eq!(call(&not_held[8..], 7_216, 4), (refused, [7; 8]));
    assert_eq!(call(&[], 0, 4), (refused, [7; 8]));
    // A wrong length of the answer is told before all else.
    for answer_len in [0, 1, 2, 3, 5, 8] {
        for (tail, size) in [(&held[..], 7_224), (&not_held, 7_216), (&held, 0), (&[], 0)] {
            assert_eq!(call(tail, size, answer_len), (ffi::BAD_BUFFER, [7; 8]));
        }
    }
}
