//! The tail beyond what the vectors hold: both trailers, the bytes given, the length, the bounds of 12, and the
//! reader on the same files.

mod common;

use common::{longest_day, ELEMENTS, EXAMPLE_16, EXAMPLE_24};
use reference::file::{file_bytes, label_day, read};
use reference::tail::{dark_test, TAIL_BYTES};
use reference::trailer::{Counts, Form};
use reference::{Refusal, Refused};

const REFUSED_12: Result<Option<u32>, Refusal> = Err(Refusal::Trailer);

/// The last 24 bytes of a file, or all.
fn tail_of(file: &[u8]) -> &[u8] {
    &file[file.len().saturating_sub(TAIL_BYTES)..]
}

/// What the tail of a whole file says.
fn asked(file: &[u8]) -> Result<Option<u32>, Refusal> {
    dark_test(tail_of(file), file.len() as u64)
}

/// What a tail says of a file that is long enough for any distance.
fn in_a_long_file(tail: &[u8]) -> Result<Option<u32>, Refusal> {
    dark_test(tail, 1 << 20)
}

/// The bytes of a trailer.
fn words<const N: usize>(numbers: [u32; N]) -> Vec<u8> {
    numbers.into_iter().flat_map(u32::to_le_bytes).collect()
}

/// The longest day's labels with a trailer of each form, and their counts.
fn longest_files() -> ([Vec<u8>; 2], Counts) {
    let mut with_24 = vec![0; file_bytes(1_024)];
    let counts = label_day(&ELEMENTS, &longest_day(), &mut with_24).unwrap();
    let body = with_24[..24 * 1_024].to_vec();
    ([[body, counts.trailer(Form::Bytes16)].concat(), with_24], counts)
}

#[test]
fn the_figure_is_held_in_24_bytes() {
    let ([with_16, with_24], counts) = longest_files();
    // None of the others, so that none can stand for it.
    let Counts { labels, training, test, dark, dark_test } = counts;
    assert!(dark_test > 0 && ![labels, training, test, dark].contains(&dark_test));
    for ahead in [0, 1, 8, 100] {
        let with = |file: &[u8]| [vec![0xbb; ahead], file.to_vec()].concat();
        assert_eq!(asked(&with(&with_24)), Ok(Some(dark_test)));
        assert_eq!(asked(&with(&with_16)), Ok(None));
        // Held, and none.
        assert_eq!(asked(&with(&EXAMPLE_24)), Ok(Some(0)));
        assert_eq!(asked(&with(&EXAMPLE_16)), Ok(None));
    }
}

/// 16 to 23 bytes are the whole file, and of the trailer of 24 bytes no such part passes.
#[test]
fn files_shorter_than_a_tail() {
    for ahead in 0..30 {
        let file = [vec![0xbb; ahead], words([0, 0, 0, 16])].concat();
        assert_eq!(asked(&file), Ok(None), "{ahead} bytes ahead");
    }
    for (trailer, whole) in
        [(words([0, 0, 0, 16]), Ok(None)), (words([0, 0, 0, 0, 0, 24]), Ok(Some(0)))]
    {
        assert_eq!(asked(&trailer), whole);
        for length in 0..trailer.len() {
            let end = &trailer[trailer.len() - length..];
            assert_eq!(asked(end), REFUSED_12, "{length} bytes");
        }
    }
}

/// Only 24 bytes are taken, or all where the file has fewer, whatever stands in them.
#[test]
fn another_number_of_bytes() {
    for (trailer, said) in [(words([0, 0, 0, 16]), None), (words([0, 0, 0, 0, 0, 24]), Some(0))] {
        let bytes = [vec![0; 40], trailer.clone()].concat();
        for length in trailer.len()..=bytes.len() {
            for given in 0..=bytes.len() {
                let expected = if given == length.min(24) { Ok(said) } else { REFUSED_12 };
                let tail = &bytes[bytes.len() - given..];
                assert_eq!(dark_test(tail, length as u64), expected, "{given} bytes of {length}");
            }
            // More than the right ones.
            let more = [tail_of(&bytes), &[0]].concat();
            assert_eq!(dark_test(&more, length as u64), REFUSED_12);
        }
    }
}

/// The distance fits into the length, however large that is.
#[test]
fn lengths() {
    let (files, counts) = longest_files();
    for (file, said) in files.iter().zip([None, Some(counts.dark_test)]) {
        let whole = file.len() as u64;
        for length in [24, 25, 1 << 10, whole - 24, whole - 8, whole - 1] {
            assert_eq!(dark_test(tail_of(file), length), REFUSED_12, "{length} bytes");
        }
        let large = [1 << 31, 1 << 32, 1 << 63].map(|power: u64| [power - 1, power, power + 1]);
        for length in [whole, whole + 1, u64::MAX - 1, u64::MAX]
            .into_iter()
            .chain(large.into_iter().flatten())
        {
            assert_eq!(dark_test(tail_of(file), length), Ok(said), "{length} bytes");
        }
    }
}

/// A count at its bound, and one beyond it.
#[test]
fn bounds_of_the_counts() {
    for (labels, training, test, dark, dark_test, held) in [
        (5, 2, 3, 5, 3, true),
        (5, 3, 3, 5, 3, false),
        (5, u32::MAX, 3, 5, 3, false),
        (5, 0, 5, 5, 5, true),
        (5, 0, 5, 6, 5, false),
        (5, 0, 5, u32::MAX, 5, false),
        // Over test alone, over dark alone.
        (5, 0, 3, 5, 4, false),
        (5, 0, 5, 3, 4, false),
        (5, 0, 5, 5, u32::MAX, false),
        (1_024, 0, 1_024, 1_024, 1_024, true),
        (1_025, 0, 1_024, 1_024, 1_024, false),
    ] {
        let distance = 24 * labels + 24;
        let tail = words([labels, training, test, dark, dark_test, distance]);
        let expected = if held { Ok(Some(dark_test)) } else { REFUSED_12 };
        assert_eq!(
            in_a_long_file(&tail),
            expected,
            "{labels} {training} {test} {dark} {dark_test}"
        );
    }
    for (labels, training, test, distance, held) in [
        (5, 2, 3, 136, true),
        (5, 3, 3, 136, false),
        (5, u32::MAX, 1, 136, false),
        (1_024, 1_024, 0, 24_592, true),
        (1_025, 1_024, 0, 24_616, false),
        // The distance of the other trailer, and the distances beside.
        (5, 2, 3, 144, false),
        (5, 2, 3, 135, false),
        (5, 2, 3, 137, false),
        (5, 2, 3, 112, false),
    ] {
        let tail = [vec![0xff; 8], words([labels, training, test, distance])].concat();
        let expected = if held { Ok(None) } else { REFUSED_12 };
        assert_eq!(in_a_long_file(&tail), expected, "{labels} {training} {test} {distance}");
    }
}

/// It refuses what the reader refuses with 12, and nothing else; of a file that the reader accepts it says
/// what the labels say.
#[test]
fn the_reader_on_the_same_files() {
    // A training label and a test label, both dark.
    let mut labels = [&EXAMPLE_16[..24], &EXAMPLE_16[..24]].concat();
    labels[24 + 8] = 65;
    labels[24 + 12] = 2;
    let mut classes = [0; 4];
    let mut compare = |trailer: Vec<u8>| {
        let file = [labels.clone(), trailer].concat();
        let said = asked(&file);
        match read(&file, file.len()) {
            Err(Refused { refusal: Refusal::Trailer, .. }) => {
                classes[0] += 1;
                assert_eq!(said, REFUSED_12);
            }
            Err(_) => {
                classes[1] += 1;
                assert!(said.is_ok());
            }
            Ok(read) => {
                let held = read.form == Form::Bytes24;
                classes[2 + usize::from(held)] += 1;
                assert_eq!(said, Ok(held.then_some(read.counts.dark_test)));
            }
        }
    };
    let few = |below: u32| (0..below).chain([u32::MAX]);
    for distance in [16, 24, 40, 48, 64, 72, 88, 96] {
        for count in few(4) {
            for training in few(3) {
                for test in few(3) {
                    compare(words([count, training, test, distance]));
                    for dark in few(4) {
                        for dark_test in few(4) {
                            compare(words([count, training, test, dark, dark_test, distance]));
                        }
                    }
                }
            }
        }
    }
    let [refused_12, refused_13, with_16, with_24] = classes;
    assert!(refused_12 > 1_000 && refused_13 > 50 && with_16 > 0 && with_24 > 0, "{classes:?}");
}
