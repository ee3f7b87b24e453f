//! Scale figures beyond what the vectors hold: what is counted, the extremes, the totals, orders of files, each bound
//! of 15, and what a refusal leaves.

mod common;

use common::{longest_day, ELEMENTS, EXAMPLE_16, EXAMPLE_24};
use reference::eclipse::Shade;
use reference::figures_bytes::FIGURES_BYTES;
use reference::file::{file_bytes, label_day, read};
use reference::label::{Label, Side};
use reference::scale::{Figures, FILES_MAX};
use reference::sine::ONE;
use reference::telemetry::Reading;
use reference::trailer::{Counts, Form};
use reference::{Refusal, Refused};

/// A training label, lit, whose reading is missing and whose sine is 0.
const LABEL: Label = Label {
    time: 0,
    revolution: 17,
    side: Side::Training,
    shade: Shade::Lit,
    reading: Reading::Missing,
    elevation_sine: 0,
};

const TEST: Label = Label { revolution: 65, side: Side::Test, ..LABEL };
const WITHHELD: Label = Label { revolution: 16, side: Side::Withheld, ..LABEL };

fn valid(watts: f32) -> Label {
    Label { reading: Reading::Valid(watts), ..LABEL }
}

fn with_sine(elevation_sine: i32) -> Label {
    Label { elevation_sine, ..LABEL }
}

/// A file of these labels.
fn file_in(form: Form, labels: &[Label]) -> Vec<u8> {
    let on = |side: Side| labels.iter().filter(move |label| label.side == side);
    let dark = |label: &&Label| label.shade == Shade::Dark;
    let counts = Counts {
        labels: labels.len() as u32,
        training: on(Side::Training).count() as u32,
        test: on(Side::Test).count() as u32,
        dark: labels.iter().filter(dark).count() as u32,
        dark_test: on(Side::Test).filter(dark).count() as u32,
    };
    let body: Vec<u8> = labels.iter().flat_map(Label::to_bytes).collect();
    [body, counts.trailer(form)].concat()
}

fn file(labels: &[Label]) -> Vec<u8> {
    file_in(Form::Bytes24, labels)
}

/// The figures with a whole file more, which is accepted.
#[track_caller]
fn added(mut figures: Figures, file: &[u8]) -> Figures {
    figures.add(file, file.len()).expect("an accepted file");
    figures
}

/// The figures of files one after another.
#[track_caller]
fn figures_of(files: &[Vec<u8>]) -> Figures {
    files.iter().fold(Figures::default(), |figures, file| added(figures, file))
}

/// The bits of the two extremes.
fn extremes(figures: &Figures) -> [Option<u32>; 2] {
    [figures.least, figures.greatest].map(|extreme| extreme.map(f32::to_bits))
}

/// The extremes of valid readings in one file.
#[track_caller]
fn extremes_of(watts: &[f32]) -> [Option<u32>; 2] {
    let labels: Vec<Label> = watts.iter().copied().map(valid).collect();
    extremes(&figures_of(&[file(&labels)]))
}

fn held(least: f32, greatest: f32) -> [Option<u32>; 2] {
    [least, greatest].map(|watts| Some(watts.to_bits()))
}

/// That a file is refused, and that the figures stay.
#[track_caller]
fn refuses(figures: &Figures, buffer: &[u8], length: usize, refusal: Refusal, place: u32) {
    let mut after = *figures;
    assert_eq!(after.add(buffer, length), Err(Refused { refusal, place }), "{figures:?}");
    assert_eq!(after.to_bytes(), figures.to_bytes(), "a refused file adds nothing");
}

/// That 15 does not refuse these figures; with a file without labels they are the same but for the files.
#[track_caller]
fn takes(figures: &Figures) {
    let after = added(*figures, &file(&[]));
    let expected = Figures { files: figures.files + 1, ..*figures };
    assert_eq!(after.to_bytes(), expected.to_bytes());
}

#[track_caller]
fn refuses_with_15(figures: &Figures) {
    let empty = file(&[]);
    refuses(figures, &empty, empty.len(), Refusal::Figures, 0);
}

/// Figures of so many files that 15 does not refuse.
fn good(files: u32, labels: u32) -> Figures {
    Figures { files, labels, ..Figures::default() }
}

#[test]
fn the_example() {
    for bytes in [&EXAMPLE_16[..], &EXAMPLE_24] {
        let ahead = [vec![0xbb; 11], bytes.to_vec()].concat();
        for file in [bytes.to_vec(), ahead] {
            let mut figures = Figures::default();
            for files in 1..=3 {
                figures = added(figures, &file);
                let Figures { labels, dark, valid, sines, squares, .. } = figures;
                assert_eq!([figures.files, labels, dark, valid], [files; 4]);
                assert_eq!(extremes(&figures), held(10.0, 10.0));
                assert_eq!((sines, squares), (-i64::from(files), 0));
            }
        }
    }
}

#[test]
fn nothing() {
    assert_eq!(Figures::default().to_bytes(), [0; FIGURES_BYTES]);
    let figures = figures_of(&[file(&[]), file_in(Form::Bytes16, &[])]);
    assert_eq!(figures.to_bytes(), Figures { files: 2, ..Figures::default() }.to_bytes());
}

/// Test and withheld labels count for nothing but their file.
#[test]
fn training_labels_alone() {
    for other in [TEST, WITHHELD] {
        let label = Label {
            shade: Shade::Dark,
            reading: Reading::Valid(-7.5),
            elevation_sine: -1_000_000_000,
            ..other
        };
        let figures = figures_of(&[file(&[label, label])]);
        assert_eq!(figures.to_bytes(), Figures { files: 1, ..Figures::default() }.to_bytes());
        let mixed = figures_of(&[file(&[label, valid(1.0), label])]);
        assert_eq!((mixed.labels, mixed.dark, mixed.valid, mixed.sines), (1, 0, 1, 0));
        assert_eq!((extremes(&mixed), mixed.squares), (held(1.0, 1.0), 0));
    }
}

#[test]
fn shades_and_readings() {
    let shades = [Shade::Lit, Shade::Dark, Shade::Part];
    for (shade, dark) in shades.into_iter().zip([0, 1, 0]) {
        let figures = figures_of(&[file(&[Label { shade, ..LABEL }])]);
        assert_eq!((figures.labels, figures.dark), (1, dark), "{shade:?}");
    }
    for reading in [Reading::Missing, Reading::Saturated] {
        let figures = figures_of(&[file(&[Label { reading, ..LABEL }])]);
        assert_eq!((figures.labels, figures.valid), (1, 0), "{reading:?}");
        assert_eq!(extremes(&figures), [None; 2]);
        // Its bits are 0, and it is not a reading of 0 watts.
        let figures = figures_of(&[file(&[valid(3.0), Label { reading, ..LABEL }, valid(2.0)])]);
        assert_eq!((figures.labels, figures.valid), (3, 2));
        assert_eq!(extremes(&figures), held(2.0, 3.0));
    }
}

#[test]
fn extremes_are_by_value() {
    let tiny = f32::from_bits(1);
    let great_tiny = f32::from_bits(0x007f_ffff);
    for (watts, least, greatest) in [
        (&[2.0, -3.0, 1.0][..], -3.0, 2.0),
        // Below zero the bits rise as the number falls.
        (&[-1.0, -2.0], -2.0, -1.0),
        (&[-2.0, -1.0], -2.0, -1.0),
        (&[f32::MAX, f32::MIN], f32::MIN, f32::MAX),
        (&[tiny, -tiny], -tiny, tiny),
        (&[0.0, tiny], 0.0, tiny),
        (&[-0.0, tiny], -0.0, tiny),
        (&[-0.0, -tiny], -tiny, -0.0),
        (&[f32::MIN_POSITIVE, great_tiny], great_tiny, f32::MIN_POSITIVE),
        (&[-f32::MIN_POSITIVE, -great_tiny], -f32::MIN_POSITIVE, -great_tiny),
    ] {
        assert_eq!(extremes_of(watts), held(least, greatest), "{watts:?}");
    }
}

/// The two zeros are equal, and of equal watts the earlier stands.
#[test]
fn the_earlier_of_equal_watts() {
    for [first, second] in [[0.0_f32, -0.0], [-0.0, 0.0]] {
        assert_eq!(extremes_of(&[first, second]), held(first, first));
        assert_eq!(extremes_of(&[first, second, 1.0]), held(first, 1.0));
        assert_eq!(extremes_of(&[first, -1.0, second]), held(-1.0, first));
        // In two files, and with the first from figures.
        let files = [first, second].map(|watts| file(&[valid(watts)]));
        assert_eq!(extremes(&figures_of(&files)), held(first, first));
    }
}

/// The least and the greatest of figures are compared each by itself, whichever they are.
#[test]
fn extremes_of_figures() {
    let figures = |least, greatest| Figures {
        valid: 1,
        least: Some(least),
        greatest: Some(greatest),
        ..good(1, 1)
    };
    for (least, greatest, watts, expected) in [
        (1.0, 2.0, 1.5, held(1.0, 2.0)),
        (1.0, 2.0, 0.5, held(0.5, 2.0)),
        (1.0, 2.0, 2.5, held(1.0, 2.5)),
        // A least over the greatest is not refused.
        (2.0, 1.0, 1.5, held(1.5, 1.5)),
        (f32::MAX, f32::MIN, 0.0, held(0.0, 0.0)),
    ] {
        let after = added(figures(least, greatest), &file(&[valid(watts)]));
        assert_eq!(extremes(&after), expected, "{least} {greatest} {watts}");
    }
}

/// Signed sines, exact; and a quotient that is cut toward zero before it is squared.
#[test]
fn totals() {
    for (sine, square) in [
        (0, 0),
        (1, 0),
        (-1, 0),
        (32_767, 0),
        (-32_767, 0),
        (32_768, 1),
        (-32_768, 1),
        (65_535, 1),
        (-65_535, 1),
        (65_536, 4),
        (1_073_741_823, 32_767 * 32_767),
        (-1_073_741_823, 32_767 * 32_767),
        (1 << 30, 1 << 30),
        (-(1 << 30), 1 << 30),
    ] {
        let figures = figures_of(&[file(&[with_sine(sine)])]);
        assert_eq!((figures.sines, figures.squares), (sine.into(), square), "{sine}");
    }
    let labels = [5, -7, -100_000, 40_000].map(with_sine);
    let figures = figures_of(&[file(&labels)]);
    assert_eq!((figures.sines, figures.squares), (-60_002, 3 * 3 + 1));
}

/// A day with every side and shade, against its labels.
#[test]
fn a_day() {
    let mut bytes = vec![0; file_bytes(1_024)];
    let counts = label_day(&ELEMENTS, &longest_day(), &mut bytes).unwrap();
    let labels: Vec<Label> = read(&bytes, bytes.len()).unwrap().labels().collect();
    let training = || labels.iter().filter(|label| label.side == Side::Training);
    let watts: Vec<f32> = training()
        .filter_map(|label| match label.reading {
            Reading::Valid(watts) => Some(watts),
            _ => None,
        })
        .collect();
    let figures = added(Figures::default(), &bytes);
    assert_eq!((figures.files, figures.labels), (1, counts.training));
    assert!(counts.training > 0 && counts.training < 1_024 && figures.dark > 0);
    let dark = training().filter(|label| label.shade == Shade::Dark).count();
    assert_eq!([figures.dark, figures.valid], [dark, watts.len()].map(|count| count as u32));
    let least = watts.iter().copied().fold(f32::INFINITY, f32::min);
    let greatest = watts.iter().copied().fold(f32::NEG_INFINITY, f32::max);
    assert_eq!(extremes(&figures), held(least, greatest));
    let sines: i64 = training().map(|label| i64::from(label.elevation_sine)).sum();
    assert_eq!(figures.sines, sines);
}

/// Six files in all 720 orders: the same but for the sign of a zero.
#[test]
fn every_order() {
    let files: Vec<Vec<u8>> = [
        vec![valid(0.0), with_sine(-99_999)],
        vec![valid(-0.0), TEST, Label { shade: Shade::Dark, ..LABEL }],
        vec![valid(1.5), with_sine(1 << 30), valid(-0.0)],
        vec![],
        vec![WITHHELD, with_sine(-(1 << 30)), with_sine(77_777)],
        vec![valid(0.25), Label { reading: Reading::Saturated, ..LABEL }],
    ]
    .iter()
    .map(|labels| file(labels))
    .collect();
    let (mut orders, mut zeros) = (0, [0; 2]);
    let first = figures_of(&files);
    let mut order = [0, 1, 2, 3, 4, 5];
    permute(&mut order, 0, &mut |order| {
        let shuffled: Vec<Vec<u8>> = order.iter().map(|number| files[*number].clone()).collect();
        let figures = figures_of(&shuffled);
        // By value the two zeros are equal.
        assert_eq!((figures.least, figures.greatest), (first.least, first.greatest));
        zeros[usize::from(figures.least.unwrap().is_sign_negative())] += 1;
        let same = Figures { least: first.least, greatest: first.greatest, ..figures };
        assert_eq!(same.to_bytes(), first.to_bytes(), "{order:?}");
        orders += 1;
    });
    // The first file with a zero gives its sign: one of three has plus.
    assert_eq!((orders, zeros), (720, [240, 480]));
}

fn permute(order: &mut [usize; 6], from: usize, seen: &mut impl FnMut(&[usize; 6])) {
    if from == order.len() {
        return seen(order);
    }
    for other in from..order.len() {
        order.swap(from, other);
        permute(order, from + 1, seen);
        order.swap(from, other);
    }
}

/// 1,000 files with as many training labels as files have; the next is refused.
#[test]
fn a_thousand_files() {
    let one = -(1 << 30);
    let label = Label { shade: Shade::Dark, elevation_sine: one, ..valid(-1.0) };
    let longest = file(&[label; 1_024]);
    let mut figures = Figures::default();
    for _ in 0..FILES_MAX {
        figures = added(figures, &longest);
    }
    let most = 1_024_000;
    let Figures { files, labels, dark, valid, sines, squares, .. } = figures;
    assert_eq!([files, labels, dark, valid], [1_000, most, most, most]);
    assert_eq!((sines, squares), (i64::from(most) * i64::from(one), u64::from(most) << 30));
    assert_eq!(extremes(&figures), held(-1.0, -1.0));
    for next in [&longest, &file(&[])] {
        refuses(&figures, next, next.len(), Refusal::Figures, 0);
    }
}

/// The files at their bound, and far beyond it.
#[test]
fn files_of_15() {
    for files in [0, 1, 998, 999] {
        takes(&good(files, 0));
    }
    for files in [1_000, 1_001, 1 << 31, u32::MAX] {
        refuses_with_15(&good(files, 0));
    }
}

/// 1,024 labels a file, in numbers that do not wrap.
#[test]
fn labels_of_15() {
    for files in [0, 1, 2, 500, 999] {
        takes(&good(files, 1_024 * files));
        for labels in [1_024 * files + 1, 1_024 * files + 1_024, u32::MAX] {
            refuses_with_15(&good(files, labels));
        }
    }
    // 2^22 files make 2^32 labels, and these are over 1,000 files.
    refuses_with_15(&good(1 << 22, 0));
}

#[test]
fn dark_and_valid_of_15() {
    for labels in [0, 1, 5, 1_024] {
        for over in [labels + 1, labels + 2, 1 << 31, u32::MAX] {
            refuses_with_15(&Figures { dark: over, ..good(1, labels) });
            let (least, greatest) = (Some(1.0), Some(1.0));
            refuses_with_15(&Figures { valid: over, least, greatest, ..good(1, labels) });
        }
        takes(&Figures { dark: labels, ..good(1, labels) });
    }
    let (least, greatest) = (Some(1.0), Some(1.0));
    takes(&Figures { valid: 5, dark: 5, least, greatest, ..good(1, 5) });
    takes(&Figures { valid: 5, dark: 0, least, greatest, ..good(1, 5) });
}

/// Held exactly where a reading is valid, and finite.
#[test]
fn extremes_of_15() {
    let some = Some(1.0);
    for (valid, least, greatest, accepted) in [
        (0, None, None, true),
        (0, some, None, false),
        (0, None, some, false),
        (0, some, some, false),
        (1, None, None, false),
        (1, some, None, false),
        (1, None, some, false),
        (1, some, some, true),
        (5, some, some, true),
    ] {
        let figures = Figures { valid, least, greatest, ..good(1, 5) };
        if accepted {
            takes(&figures);
        } else {
            refuses_with_15(&figures);
        }
    }
    let quiet = f32::from_bits(0x7fc0_0000);
    let others = [0x7f80_0001, 0xff80_0001, 0xffff_ffff].map(f32::from_bits);
    for bad in [f32::INFINITY, f32::NEG_INFINITY, quiet, others[0], others[1], others[2]] {
        for (least, greatest) in [(Some(bad), some), (some, Some(bad)), (Some(bad), Some(bad))] {
            refuses_with_15(&Figures { valid: 1, least, greatest, ..good(1, 1) });
        }
    }
    for fine in [0.0, -0.0, f32::MAX, f32::MIN, f32::from_bits(1), f32::from_bits(0x8000_0001)] {
        let (least, greatest) = (Some(fine), Some(fine));
        takes(&Figures { valid: 1, least, greatest, ..good(1, 1) });
    }
}

/// Either total is at most 2^30 a label, and −2^63 is no exception.
#[test]
fn totals_of_15() {
    for labels in [0_u32, 1, 1_024] {
        let most = i64::from(labels) * ONE;
        for sines in [-most, most] {
            takes(&Figures { sines, ..good(1, labels) });
        }
        takes(&Figures { squares: most as u64, ..good(1, labels) });
        for sines in [-most - 1, most + 1, i64::MIN, i64::MIN + 1, i64::MAX] {
            refuses_with_15(&Figures { sines, ..good(1, labels) });
        }
        for squares in [most as u64 + 1, 1 << 63, u64::MAX] {
            refuses_with_15(&Figures { squares, ..good(1, labels) });
        }
    }
}

/// 12, then 13 at its place, and then 15.
#[test]
fn the_order_of_refusals() {
    let sound = file(&[valid(1.0), TEST]);
    let mut broken = file(&[LABEL; 3]);
    broken[24 + 15] = 1;
    let mut counts = file(&[LABEL; 3]);
    counts[3 * 24 + 4] = 2;
    for figures in [
        Figures::default(),
        added(Figures::default(), &sound),
        good(1_000, 0),
        Figures { sines: i64::MIN, ..good(0, u32::MAX) },
    ] {
        refuses(&figures, &[], 0, Refusal::Trailer, 0);
        refuses(&figures, &sound[1..], sound.len() - 1, Refusal::Trailer, 0);
        for beyond in [sound.len() + 1, usize::MAX] {
            refuses(&figures, &sound, beyond, Refusal::Trailer, 0);
        }
        refuses(&figures, &broken, broken.len(), Refusal::Labels, 1);
        refuses(&figures, &counts, counts.len(), Refusal::Labels, 3);
    }
    refuses(&good(1_000, 0), &sound, sound.len(), Refusal::Figures, 0);
    // Bytes behind the length are not the file's.
    let longer = [&sound[..], &[1; 30]].concat();
    let mut figures = Figures::default();
    assert_eq!(figures.add(&longer, sound.len()), Ok(()));
    assert_eq!(figures.to_bytes(), figures_of(&[sound]).to_bytes());
}

/// Every byte of figures, and that they say the figures again.
#[test]
fn bytes_of_figures() {
    let bytes: [u8; FIGURES_BYTES] = std::array::from_fn(|at| at as u8 + 1);
    let figures = Figures::from_bytes(&bytes);
    let Figures { files, labels, dark, valid, sines, squares, .. } = figures;
    assert_eq!([files, labels, dark, valid], [0x0403_0201, 0x0807_0605, 0x0c0b_0a09, 0x100f_0e0d]);
    assert_eq!(extremes(&figures), [Some(0x1817_1615), Some(0x201f_1e1d)]);
    assert_eq!((sines, squares), (0x2827_2625_2423_2221, 0x302f_2e2d_2c2b_2a29));
    let mut again = bytes;
    for held in [16, 24] {
        again[held..held + 4].copy_from_slice(&[1, 0, 0, 0]);
    }
    assert_eq!(figures.to_bytes(), again);
    // Any number but 0 is held; the bits behind a 0 do not matter.
    for flag in [1, 2, 256, 1 << 31, u32::MAX] {
        let mut bytes = bytes;
        bytes[16..20].copy_from_slice(&flag.to_le_bytes());
        assert!(Figures::from_bytes(&bytes).least.is_some(), "{flag}");
    }
    for (at, extreme) in [(16, 0), (24, 1)] {
        let mut bytes = bytes;
        bytes[at..at + 4].fill(0);
        let figures = Figures::from_bytes(&bytes);
        assert_eq!(extremes(&figures)[extreme], None);
        assert_eq!(figures.to_bytes()[at..at + 8], [0; 8]);
    }
    let negative = Figures { sines: i64::MIN, ..Figures::default() };
    assert_eq!(negative.to_bytes()[32..40], [0, 0, 0, 0, 0, 0, 0, 0x80]);
    assert_eq!(Figures::from_bytes(&negative.to_bytes()).sines, i64::MIN);
}
