//! Scale figures by the library and by the reference: every kind of label, every step of the squares, every order of
//! five files, watts of every kind against each other, figures about every bound, every number of held, every length of
//! the buffer, and 1,000 files one after another. All 48 bytes are compared, with guards around them.

use reference::eclipse::Shade;
use reference::figures_bytes::FIGURES_BYTES;
use reference::label::{Label, Side};
use reference::scale::Figures;
use reference::sine::ONE;
use reference::telemetry::Reading;
use reference::trailer::{Counts, Form};
use yurdelmiz::ffi;

/// What stands around the buffer.
const GUARD: [u8; 16] = [0xd5; 16];

type Answer = Result<(), (u32, u32)>;

/// The library's call on figures of any length between guards.
#[track_caller]
fn call(figures: &[u8], buffer: &[u8], size: usize) -> (Answer, Vec<u8>) {
    let mut lent = [&GUARD, figures, &GUARD].concat();
    // SAFETY: the slices are the middle of `lent`, and `buffer`.
    let result = unsafe {
        ffi::yurdelmiz_scale(
            lent[16..].as_mut_ptr(),
            figures.len(),
            buffer.as_ptr(),
            buffer.len(),
            size,
        )
    };
    let behind = lent.split_off(16 + figures.len());
    let left = lent.split_off(16);
    assert_eq!([lent, behind].concat(), [GUARD; 2].concat(), "guards");
    let told = match (result as u32, (result >> 32) as u32) {
        (0, 0) => Ok(()),
        told => Err(told),
    };
    (told, left)
}

/// Adds a file by both to the figures of these bytes, and compares all that they give and leave.
#[track_caller]
fn add(bytes: &mut [u8; FIGURES_BYTES], buffer: &[u8], size: usize) -> Answer {
    let (told, left) = call(bytes, buffer, size);
    let mut figures = Figures::from_bytes(bytes);
    let added =
        figures.add(buffer, size).map_err(|refused| (refused.refusal.number(), refused.place));
    assert_eq!(told, added, "{bytes:?}");
    if added.is_ok() {
        *bytes = figures.to_bytes();
    } else {
        let before = Figures::from_bytes(bytes);
        assert_eq!(figures.to_bytes(), before.to_bytes(), "a refused file adds nothing");
    }
    assert_eq!(left, *bytes, "the figures differ");
    told
}

/// The file of these labels.
fn file_in(form: Form, labels: &[Label]) -> Vec<u8> {
    let count = |wanted: &dyn Fn(&Label) -> bool| {
        labels.iter().filter(|label| wanted(label)).count() as u32
    };
    let counts = Counts {
        labels: labels.len() as u32,
        training: count(&|label| label.side == Side::Training),
        test: count(&|label| label.side == Side::Test),
        dark: count(&|label| label.shade == Shade::Dark),
        dark_test: count(&|label| label.shade == Shade::Dark && label.side == Side::Test),
    };
    let body: Vec<u8> = labels.iter().flat_map(Label::to_bytes).collect();
    [body, counts.trailer(form)].concat()
}

fn file(labels: &[Label]) -> Vec<u8> {
    file_in(Form::Bytes24, labels)
}

const LABEL: Label = Label {
    time: 0,
    revolution: 17,
    side: Side::Training,
    shade: Shade::Lit,
    reading: Reading::Missing,
    elevation_sine: 0,
};

fn valid(bits: u32) -> Label {
    Label { reading: Reading::Valid(f32::from_bits(bits)), ..LABEL }
}

/// Zeros, the ends of the numbers below the normal ones, ones, and the ends, of either sign.
const WATTS: [u32; 12] = [
    0,
    1,
    0x007f_ffff,
    0x0080_0000,
    0x3f80_0000,
    0x7f7f_ffff,
    0x8000_0000,
    0x8000_0001,
    0x807f_ffff,
    0x8080_0000,
    0xbf80_0000,
    0xff7f_ffff,
];

/// Infinities, and NaNs from the first to the last.
const NOT_FINITE: [u32; 6] =
    [0x7f80_0000, 0xff80_0000, 0x7f80_0001, 0x7fc0_0000, 0xff80_0001, 0xffff_ffff];

const START: [u8; FIGURES_BYTES] = [0; FIGURES_BYTES];

/// Every side, shade and reading, alone and behind one that counts, with either trailer and bytes in front.
#[test]
fn every_kind_of_label() {
    let (mut kinds, mut training) = (0, 0);
    for (revolution, side) in [(16, Side::Withheld), (17, Side::Training), (65, Side::Test)] {
        for shade in [Shade::Lit, Shade::Dark, Shade::Part] {
            for reading in [Reading::Missing, Reading::Valid(-2.5), Reading::Saturated] {
                let label =
                    Label { revolution, side, shade, reading, elevation_sine: -99_999, ..LABEL };
                for labels in [vec![label], vec![valid(0x3f80_0000), label]] {
                    for form in Form::ALL {
                        for ahead in [0, 5] {
                            let bytes = [vec![9; ahead], file_in(form, &labels)].concat();
                            let mut figures = START;
                            assert_eq!(add(&mut figures, &bytes, bytes.len()), Ok(()));
                            training += Figures::from_bytes(&figures).labels;
                            kinds += 1;
                        }
                    }
                }
            }
        }
    }
    assert_eq!((kinds, training), (216, 4 * 9 + 4 * (27 + 9)));
}

/// The sines at and next to every multiple of 32,768.
#[test]
fn every_step_of_the_squares() {
    let steps = (-32_768..=32_768).flat_map(|step| [-1, 0, 1].map(|by| step * 32_768 + by));
    let sines: Vec<i64> = steps.filter(|sine: &i64| sine.abs() <= ONE).collect();
    let labels: Vec<Label> =
        sines.iter().map(|sine| Label { elevation_sine: *sine as i32, ..LABEL }).collect();
    assert_eq!(labels.len(), 3 * 65_537 - 2);
    let mut figures = START;
    for labels in labels.chunks(1_024) {
        let bytes = file(labels);
        assert_eq!(add(&mut figures, &bytes, bytes.len()), Ok(()));
    }
    let Figures { sines: total, squares, .. } = Figures::from_bytes(&figures);
    // Cut toward zero: the step itself, and one less in size on the side of zero.
    let expected = |sine: &i64| (sine.unsigned_abs() / 32_768).pow(2);
    assert_eq!((total, squares), (sines.iter().sum(), sines.iter().map(expected).sum()));
}

/// Watts of every kind, two and three in a file, and one behind figures that hold two others.
#[test]
fn watts_of_every_kind() {
    for first in WATTS {
        for second in WATTS {
            let pair = file(&[valid(first), valid(second)]);
            let mut figures = START;
            assert_eq!(add(&mut figures, &pair, pair.len()), Ok(()));
            for third in WATTS {
                let three = file(&[valid(first), valid(second), valid(third)]);
                assert_eq!(add(&mut START.clone(), &three, three.len()), Ok(()));
                let held = Figures {
                    files: 1,
                    labels: 1,
                    valid: 1,
                    least: Some(f32::from_bits(first)),
                    greatest: Some(f32::from_bits(second)),
                    ..Figures::default()
                };
                let one = file(&[valid(third)]);
                assert_eq!(add(&mut held.to_bytes(), &one, one.len()), Ok(()));
            }
        }
    }
}

/// Held or not, of every kind, with every few of labels and valid readings.
#[test]
fn extremes_of_every_kind() {
    let kinds: Vec<Option<u32>> =
        [None].into_iter().chain(WATTS.into_iter().chain(NOT_FINITE).map(Some)).collect();
    let [empty, one] = [file(&[]), file(&[valid(0)])];
    let mut accepted = 0;
    for labels in 0..3 {
        for valid in 0..4 {
            for least in &kinds {
                for greatest in &kinds {
                    let [least, greatest] = [least, greatest].map(|bits| bits.map(f32::from_bits));
                    let figures =
                        Figures { files: 1, labels, valid, least, greatest, ..Figures::default() };
                    let told = [&empty, &one]
                        .map(|file| add(&mut figures.to_bytes(), file, file.len()).is_ok());
                    let right = |extreme: Option<f32>| {
                        extreme.is_some() == (valid > 0) && extreme.is_none_or(f32::is_finite)
                    };
                    let good = valid <= labels && right(least) && right(greatest);
                    assert_eq!(told, [good; 2], "{figures:?}");
                    accepted += u32::from(good);
                }
            }
        }
    }
    assert_eq!(accepted, 3 + 3 * 12 * 12);
}

/// Every number of files to 1,002, with the labels next to their bound, and the totals next to theirs.
#[test]
fn figures_about_every_bound() {
    let empty = file(&[]);
    for files in (0..=1_002).chain([1 << 22, (1 << 22) + 1, 1 << 31, u32::MAX]) {
        let bound = files.wrapping_mul(1_024);
        for labels in [0, 1, bound.wrapping_sub(1), bound, bound.wrapping_add(1), u32::MAX] {
            let most = i64::from(labels) * ONE;
            let figures = Figures { files, labels, ..Figures::default() };
            for (sines, over) in [
                (0, false),
                (most, false),
                (-most, false),
                (most + 1, true),
                (-most - 1, true),
                (i64::MAX, true),
                (i64::MIN, true),
            ] {
                let told = add(&mut Figures { sines, ..figures }.to_bytes(), &empty, empty.len());
                let good = files < 1_000 && labels <= 1_024 * files && !over;
                assert_eq!(told.is_ok(), good, "{files} {labels} {sines}");
            }
            for (squares, over) in
                [(most as u64, false), (most as u64 + 1, true), (1 << 63, true), (u64::MAX, true)]
            {
                let told = add(&mut Figures { squares, ..figures }.to_bytes(), &empty, empty.len());
                let good = files < 1_000 && labels <= 1_024 * files && !over;
                assert_eq!(told.is_ok(), good, "{files} {labels} {squares}");
            }
            for dark in [0, labels, labels.wrapping_add(1), u32::MAX] {
                let told = add(&mut Figures { dark, ..figures }.to_bytes(), &empty, empty.len());
                let good = files < 1_000 && labels <= 1_024 * files && dark <= labels;
                assert_eq!(told.is_ok(), good, "{files} {labels} {dark}");
            }
        }
    }
}

/// Every byte in each of the four of a number of held, where readings are valid and where none is, before any bits.
#[test]
fn every_number_of_held() {
    let [empty, one] = [file(&[]), file(&[valid(0x8000_0000)])];
    for at in (16..20).chain(24..28) {
        for byte in 0..=255 {
            for valid in [0, 1] {
                for bits in [0, 0x4000_0000, 0x7f80_0000, 0xffff_ffff_u32] {
                    let mut figures = Figures { files: 1, labels: 1, valid, ..Figures::default() };
                    if valid > 0 {
                        (figures.least, figures.greatest) = (Some(1.0), Some(1.0));
                    }
                    let mut bytes = figures.to_bytes();
                    let held = at / 8 * 8;
                    bytes[held..held + 4].fill(0);
                    bytes[at] = byte;
                    bytes[held + 4..held + 8].copy_from_slice(&bits.to_le_bytes());
                    let good = if valid > 0 {
                        byte != 0 && f32::from_bits(bits).is_finite()
                    } else {
                        byte == 0
                    };
                    for file in [&empty, &one] {
                        let mut bytes = bytes;
                        let told = add(&mut bytes, file, file.len());
                        assert_eq!(told.is_ok(), good, "byte {at} is {byte}, {bits:08x}");
                    }
                }
            }
        }
    }
}

/// A buffer of any other length is told with 255, and nothing of it is changed.
#[test]
fn every_length() {
    let one = file(&[valid(1)]);
    for length in 0..=100 {
        let bytes = vec![0; length];
        for size in [one.len(), one.len() + 1, 0] {
            let (told, left) = call(&bytes, &one, size);
            if length == FIGURES_BYTES {
                assert_eq!(told.is_ok(), size == one.len());
            } else {
                assert_eq!((told, left), (Err((ffi::BAD_BUFFER, 0)), bytes.clone()));
            }
        }
    }
}

/// Every size of a file in a buffer, those beyond it too; and every label of it broken.
#[test]
fn every_size_and_place() {
    let sound = file(&[valid(1), Label { shade: Shade::Dark, ..LABEL }, valid(0)]);
    let buffer = [&sound[..], &[0; 30]].concat();
    let full = Figures { files: 1_000, ..Figures::default() }.to_bytes();
    for size in (0..=buffer.len() + 30).chain([1 << 32, usize::MAX]) {
        let told = add(&mut START.clone(), &buffer, size);
        assert_eq!(told.is_ok(), size == sound.len(), "{size}");
        let told = add(&mut full.clone(), &buffer, size);
        let number = if size == sound.len() { 15 } else { 12 };
        assert_eq!(told, Err((number, 0)), "{size}");
    }
    for beyond in (sound.len() + 1..sound.len() + 50).chain([1 << 32, usize::MAX]) {
        assert_eq!(add(&mut START.clone(), &sound, beyond), Err((12, 0)), "{beyond}");
    }
    for place in 0..3 {
        let mut broken = sound.clone();
        broken[24 * place + 15] = 1;
        for mut figures in [START, full] {
            assert_eq!(add(&mut figures, &broken, broken.len()), Err((13, place as u32)));
        }
    }
}

/// Five files in all 120 orders, with a refused one between any two: the same but for the sign of a zero.
#[test]
fn every_order() {
    let files = [
        file(&[valid(0), Label { elevation_sine: -40_000, ..LABEL }]),
        file(&[valid(0x8000_0000), Label { shade: Shade::Dark, ..LABEL }]),
        file(&[valid(0x3f80_0000), Label { elevation_sine: 1 << 30, ..LABEL }]),
        file(&[]),
        file(&[Label { revolution: 65, side: Side::Test, ..valid(0xbf80_0000) }]),
    ];
    let mut orders: Vec<Vec<usize>> = vec![vec![]];
    for _ in 0..5 {
        let longer = |order: &Vec<usize>| {
            let left = (0..5).filter(|number| !order.contains(number));
            left.map(|number| [&order[..], &[number]].concat()).collect::<Vec<_>>()
        };
        orders = orders.iter().flat_map(longer).collect();
    }
    assert_eq!(orders.len(), 120);
    let mut negative = 0;
    for order in orders {
        let mut figures = START;
        for number in order {
            assert_eq!(add(&mut figures, &files[number], files[number].len()), Ok(()));
            assert_eq!(add(&mut figures, &files[0][1..], files[0].len() - 1), Err((12, 0)));
        }
        let mut figures = Figures::from_bytes(&figures);
        let least = figures.least.expect("a valid reading");
        assert_eq!((least, figures.greatest), (0.0, Some(1.0)));
        negative += u32::from(least.is_sign_negative());
        figures.least = Some(0.0);
        let expected = Figures {
            files: 5,
            labels: 6,
            dark: 1,
            valid: 3,
            least: Some(0.0),
            greatest: Some(1.0),
            sines: (1 << 30) - 40_000,
            squares: (1 << 30) + 1,
        };
        assert_eq!(figures.to_bytes(), expected.to_bytes());
    }
    // In half of the orders the second file comes before the first.
    assert_eq!(negative, 60);
}

/// From nothing, with as much as files can hold, and the 1,001st refused.
#[test]
fn a_thousand_files() {
    let label = Label { shade: Shade::Dark, elevation_sine: -(1 << 30), ..valid(0xff7f_ffff) };
    let longest = file(&[label; 1_024]);
    let mut figures = START;
    for _ in 0..1_000 {
        assert_eq!(add(&mut figures, &longest, longest.len()), Ok(()));
    }
    let Figures { files, labels, sines, squares, .. } = Figures::from_bytes(&figures);
    assert_eq!((files, labels), (1_000, 1_024_000));
    assert_eq!((sines, squares), (-1_024_000 * ONE, 1_024_000 << 30));
    for next in [&longest, &file(&[])] {
        assert_eq!(add(&mut figures, next, next.len()), Err((15, 0)));
    }
}
