//! Scale figures: those of days against their labels, orders of files, each refusal with what it leaves, and the bytes
//! of the buffer.

mod common;

use common::{day, telemetry, with_16_bytes, OSCAR_10};
use yurdelmiz::{
    ffi, label_to_vec, Figures, Form, Label, LabelFile, Reading, Refusal, Refused, Shade, Side,
};

/// A file with labels of every side, some of them dark.
fn labelled() -> Vec<u8> {
    label_to_vec(&OSCAR_10, &day()).unwrap()
}

/// A training label, lit.
const LABEL: Label = Label {
    time: 0,
    revolution: 17,
    side: Side::Training,
    shade: Shade::Lit,
    reading: Reading::Missing,
    elevation: 0,
};

fn valid(watts: f32) -> Label {
    Label { reading: Reading::Valid(watts), ..LABEL }
}

/// A file of lit training labels.
fn file_of(labels: &[Label]) -> Vec<u8> {
    let number = labels.len() as u32;
    let distance = Form::Bytes24.distance(labels.len()) as u32;
    let trailer = [number, number, 0, 0, 0, distance].map(u32::to_le_bytes).concat();
    labels.iter().flat_map(Label::to_bytes).chain(trailer).collect()
}

/// The figures of the labels of a file, summed here.
fn counted(file: &[u8]) -> Figures {
    let mut figures = Figures { files: 1, ..Figures::default() };
    let labels = LabelFile::read(file).unwrap().labels();
    for label in labels.filter(|label| label.side == Side::Training) {
        figures.labels += 1;
        figures.dark += u32::from(label.shade == Shade::Dark);
        figures.valid += u32::from(label.reading.watts().is_some());
        figures.least = figures.least.into_iter().chain(label.reading.watts()).reduce(f32::min);
        figures.greatest =
            figures.greatest.into_iter().chain(label.reading.watts()).reduce(f32::max);
        figures.sines += i64::from(label.elevation);
        figures.squares += u64::from((label.elevation / 32_768).unsigned_abs()).pow(2);
    }
    figures
}

#[track_caller]
fn added(mut figures: Figures, file: &[u8]) -> Figures {
    figures.add(file).expect("an accepted file");
    figures
}

/// That a file is refused, and that the figures stay.
#[track_caller]
fn refuses(figures: &Figures, file: &[u8], refusal: Refusal, place: u32) {
    let mut after = *figures;
    assert_eq!(after.add(file), Err(Refused { refusal, place }), "{figures:?}");
    assert_eq!(after.to_bytes(), figures.to_bytes(), "a refused file adds nothing");
}

/// The bits of the two extremes.
fn extremes(figures: &Figures) -> [Option<u32>; 2] {
    [figures.least, figures.greatest].map(|extreme| extreme.map(f32::to_bits))
}

#[test]
fn figures_of_a_day() {
    let file = labelled();
    let expected = counted(&file);
    let counts = LabelFile::read(&file).unwrap().counts();
    assert_eq!(expected.labels, counts.training);
    assert!(expected.dark > 0 && expected.dark < counts.dark, "other sides have dark labels too");
    for file in [with_16_bytes(&file), file] {
        for ahead in [0, 1, 8, 1_000] {
            let file = [vec![7; ahead], file.clone()].concat();
            assert_eq!(added(Figures::default(), &file), expected);
        }
    }
}

#[test]
fn files_one_after_another() {
    let files = [
        labelled(),
        label_to_vec(&OSCAR_10, &telemetry(&[0, 60, 120])).unwrap(),
        label_to_vec(&OSCAR_10, &[]).unwrap(),
        file_of(&[valid(-3.0), valid(1e9)]),
    ];
    let forward = files.iter().fold(Figures::default(), |figures, file| added(figures, file));
    let back = files.iter().rev().fold(Figures::default(), |figures, file| added(figures, file));
    assert_eq!(forward, back);
    let parts = files.each_ref().map(|file| counted(file));
    assert_eq!(forward.files, 4);
    assert_eq!(forward.labels, parts.iter().map(|part| part.labels).sum::<u32>());
    assert_eq!(forward.sines, parts.iter().map(|part| part.sines).sum::<i64>());
    assert_eq!(forward.squares, parts.iter().map(|part| part.squares).sum::<u64>());
    assert_eq!((forward.least, forward.greatest), (Some(-3.0), Some(1e9)));
}

/// Of equal watts the earlier stands, and the two zeros are equal; other watts are told by value.
#[test]
fn extremes_of_files() {
    let tiny = f32::from_bits(1);
    for (watts, least, greatest) in [
        (&[0.0, -0.0][..], 0.0, 0.0),
        (&[-0.0, 0.0], -0.0, -0.0),
        (&[-0.0, tiny, 0.0], -0.0, tiny),
        (&[0.0, -tiny, -0.0], -tiny, 0.0),
        (&[-1.0, -2.0], -2.0, -1.0),
        (&[f32::MIN, f32::MAX], f32::MIN, f32::MAX),
    ] {
        let expected = [least, greatest].map(|watts: f32| Some(watts.to_bits()));
        let labels: Vec<Label> = watts.iter().copied().map(valid).collect();
        let at_once = added(Figures::default(), &file_of(&labels));
        assert_eq!(extremes(&at_once), expected, "{watts:?}");
        let files = labels.iter().map(|label| file_of(&[*label]));
        let one_by_one = files.fold(Figures::default(), |figures, file| added(figures, &file));
        assert_eq!(extremes(&one_by_one), expected, "{watts:?}");
    }
}

#[test]
fn a_thousand_files() {
    let file = file_of(&[valid(1.0)]);
    let mut figures = Figures::default();
    for _ in 0..Figures::MOST_FILES {
        figures = added(figures, &file);
    }
    assert_eq!([figures.files, figures.labels, figures.valid], [1_000; 3]);
    refuses(&figures, &file, Refusal::Figures, 0);
    let told = figures.add(&file).unwrap_err().to_string();
    assert!(told.starts_with("refused 15 at 0: the figures have 1,000 files already"), "{told}");
}

/// 12 and 13 of the file, at their places, come before 15 of the figures.
#[test]
fn refused_files() {
    let file = labelled();
    let mut broken = file.clone();
    broken[24 * 5 + 15] = 1;
    let mut counts = file.clone();
    counts[24 * 300 + 4] ^= 1;
    for figures in [
        Figures::default(),
        counted(&file),
        Figures { files: 1_000, ..Figures::default() },
        Figures { sines: i64::MIN, ..Figures::default() },
    ] {
        refuses(&figures, &[], Refusal::Trailer, 0);
        refuses(&figures, &file[1..], Refusal::Trailer, 0);
        refuses(&figures, &broken, Refusal::Labels, 5);
        refuses(&figures, &counts, Refusal::Labels, 300);
    }
}

/// Each case of 15 at its bound and beyond it.
#[test]
fn figures_of_no_files() {
    let one = Some(1.0);
    let good = Figures {
        files: 2,
        labels: 2_048,
        dark: 2_048,
        valid: 2_048,
        least: one,
        greatest: one,
        sines: -(1 << 41),
        squares: 1 << 41,
    };
    let empty = file_of(&[]);
    assert_eq!(added(good, &empty), Figures { files: 3, ..good });
    assert_eq!(added(Figures { files: 999, ..good }, &empty), Figures { files: 1_000, ..good });
    let none = Figures { valid: 0, least: None, greatest: None, ..good };
    assert_eq!(added(none, &empty), Figures { files: 3, ..none });
    for bad in [
        Figures { files: 1_000, ..good },
        Figures { files: u32::MAX, ..good },
        Figures { labels: 2_049, ..good },
        Figures { labels: u32::MAX, ..good },
        Figures { files: 0, labels: 1, ..Figures::default() },
        Figures { dark: 2_049, ..good },
        Figures { dark: u32::MAX, ..good },
        Figures { valid: 2_049, ..good },
        Figures { valid: u32::MAX, ..good },
        Figures { valid: 0, ..good },
        Figures { least: None, ..good },
        Figures { greatest: None, ..good },
        Figures { least: one, ..none },
        Figures { greatest: one, ..none },
        Figures { least: Some(f32::NAN), ..good },
        Figures { least: Some(f32::NEG_INFINITY), ..good },
        Figures { greatest: Some(f32::NAN), ..good },
        Figures { greatest: Some(f32::INFINITY), ..good },
        Figures { sines: -(1 << 41) - 1, ..good },
        Figures { sines: (1 << 41) + 1, ..good },
        Figures { sines: i64::MIN, ..good },
        Figures { sines: i64::MAX, ..good },
        Figures { squares: (1 << 41) + 1, ..good },
        Figures { squares: u64::MAX, ..good },
    ] {
        refuses(&bad, &empty, Refusal::Figures, 0);
    }
}

#[test]
fn every_byte() {
    assert_eq!(Figures::default().to_bytes(), [0; Figures::SIZE]);
    let figures = Figures {
        files: 0x0403_0201,
        labels: 0x0807_0605,
        dark: 0x0c0b_0a09,
        valid: 0x100f_0e0d,
        least: Some(f32::from_bits(0x1817_1615)),
        greatest: Some(f32::from_bits(0x201f_1e1d)),
        sines: 0x2827_2625_2423_2221,
        squares: 0x302f_2e2d_2c2b_2a29,
    };
    let mut bytes: [u8; Figures::SIZE] = std::array::from_fn(|at| at as u8 + 1);
    assert_eq!(Figures::from_bytes(&bytes), figures);
    for held in [16, 24] {
        bytes[held..held + 4].copy_from_slice(&[1, 0, 0, 0]);
    }
    assert_eq!(figures.to_bytes(), bytes);
    let low = Figures { sines: i64::MIN, least: None, ..figures };
    assert_eq!(low.to_bytes()[16..24], [0; 8]);
    assert_eq!(Figures::from_bytes(&low.to_bytes()), low);
}

/// What stands around the buffer.
const GUARD: u8 = 7;

/// The call itself, with figures between guards: its result, and the bytes that it leaves there.
#[track_caller]
fn call(figures: &[u8], file: &[u8], size: usize) -> (u64, Vec<u8>) {
    let guard = [GUARD; 16];
    let mut lent = [&guard, figures, &guard].concat();
    // SAFETY: the slices are the middle of `lent`, and `file`.
    let result = unsafe {
        ffi::yurdelmiz_scale(
            lent[16..].as_mut_ptr(),
            figures.len(),
            file.as_ptr(),
            file.len(),
            size,
        )
    };
    let end = lent.len() - 16;
    assert_eq!([&lent[..16], &lent[end..]].concat(), [GUARD; 32], "guards");
    (result, lent[16..end].to_vec())
}

/// Another length is no refusal of the table, comes before all of them, and changes nothing.
#[test]
fn other_lengths() {
    let file = file_of(&[valid(1.0)]);
    for length in [0, 1, 16, 47, 49, 96] {
        let figures = vec![0; length];
        for size in [file.len(), file.len() + 1, 0] {
            let told = call(&figures, &file, size);
            assert_eq!(told, (ffi::BAD_BUFFER.into(), figures.clone()), "{length} bytes");
        }
    }
    assert_eq!(call(&[0; 48], &file, file.len()).0, 0);
}

/// The file is the first `size` bytes; where there are fewer, that is 12.
#[test]
fn sizes() {
    let file = file_of(&[valid(1.0), valid(2.0)]);
    let expected = added(Figures::default(), &file).to_bytes().to_vec();
    let longer = [&file[..], &[3; 40]].concat();
    assert_eq!(call(&[0; 48], &longer, file.len()), (0, expected));
    for size in [file.len() + 1, file.len() + 24, 1 << 32, usize::MAX] {
        assert_eq!(call(&[0; 48], &file, size), (12, vec![0; 48]), "{size}");
    }
}

/// Any number but 0 is held, and 1 is written; where none is held, what stands behind is not looked at, and 0 is
/// written.
#[test]
fn numbers_of_held() {
    let (empty, file) = (file_of(&[]), file_of(&[valid(2.0)]));
    let figures = added(Figures::default(), &file);
    let written = added(figures, &empty).to_bytes().to_vec();
    for flag in [1, 2, 255, 256, 1 << 16, 1 << 31, u32::MAX] {
        for at in [16, 24] {
            let mut bytes = figures.to_bytes();
            bytes[at..at + 4].copy_from_slice(&flag.to_le_bytes());
            assert_eq!(call(&bytes, &empty, empty.len()), (0, written.clone()), "{flag} at {at}");
            let mut none = [0; 48];
            none[at..at + 4].copy_from_slice(&flag.to_le_bytes());
            assert_eq!(call(&none, &empty, empty.len()), (15, none.to_vec()), "{flag} at {at}");
        }
    }
    let none = Figures { files: 1, ..Figures::default() }.to_bytes().to_vec();
    for bits in [1, 0x3f80_0000, f32::NAN.to_bits(), f32::INFINITY.to_bits(), u32::MAX] {
        let mut bytes = [0; 48];
        for at in [20, 28] {
            bytes[at..at + 4].copy_from_slice(&bits.to_le_bytes());
        }
        assert_eq!(call(&bytes, &empty, empty.len()), (0, none.clone()), "{bits:08x}");
        let first = added(Figures::default(), &file).to_bytes().to_vec();
        assert_eq!(call(&bytes, &file, file.len()), (0, first), "{bits:08x}");
        // After a refusal they are the bytes before.
        assert_eq!(call(&bytes, &empty, 0), (12, bytes.to_vec()));
    }
}
