//! Comparisons of scale figures, by the call of the C interface and all bytes that it leaves: files one after another
//! from nothing, the same in other orders, and any figures, at each bound of 15 and beyond it.

use reference::figures_bytes::FIGURES_BYTES;
use reference::label::LABEL_BYTES;
use reference::scale::{Figures, FILES_MAX};
use reference::sine::ONE;
use reference::telemetry::RECORDS_MAX;
use yurdelmiz::ffi;

use crate::answers::{reference_refused, Refused};
use crate::inputs::{self, about, up_to};
use crate::label_files::{self, any_file, any_label};
use crate::lent::Lent;
use crate::random::Random;
use crate::report::{Hex, Report};

/// Where the buffer has the labels, and whether the least and the greatest are held; their bits are behind that.
const LABELS: usize = 4;
const HELD: [usize; 2] = [16, 24];

/// Where a label has its reading, its sine and its watts.
const READING: usize = 14;
const SINE: usize = 16;
const WATTS: usize = 20;

const BAD_BUFFER: Refused = (ffi::BAD_BUFFER, 0);

pub fn scale(random: &mut Random, report: &mut Report) {
    match random.below(8) {
        0 => one_after_another(random, report),
        1 => other_orders(random, report),
        _ => any_figures(random, report),
    }
}

fn put(bytes: &mut [u8], at: usize, number: u32) {
    bytes[at..at + 4].copy_from_slice(&number.to_le_bytes());
}

fn word(bytes: &[u8], at: usize) -> u32 {
    u32::from_le_bytes(bytes[at..at + 4].try_into().expect("4 bytes"))
}

/// The library's call on figures between guards.
fn by_library(
    report: &mut Report,
    figures: &mut Vec<u8>,
    buffer: &[u8],
    size: usize,
) -> Result<(), Refused> {
    let mut lent = Lent::new(figures);
    let bytes = lent.bytes();
    // SAFETY: the slices are `bytes` and `buffer`.
    let result = unsafe {
        ffi::yurdelmiz_scale(bytes.as_mut_ptr(), bytes.len(), buffer.as_ptr(), buffer.len(), size)
    };
    *figures = bytes.to_vec();
    report.equal(&"scale", "guards", lent.guarded(), true);
    match (result as u32, (result >> 32) as u32) {
        (0, 0) => Ok(()),
        told => Err(told),
    }
}

/// The reference's, which has no buffer but figures: their bytes are written where a file is added, or they changed.
fn by_reference(figures: &mut [u8], buffer: &[u8], size: usize) -> Result<(), Refused> {
    let Ok(bytes) = <&mut [u8; FIGURES_BYTES]>::try_from(figures) else {
        return Err(BAD_BUFFER);
    };
    let mut figures = Figures::from_bytes(bytes);
    let before = figures.to_bytes();
    let outcome = figures.add(buffer, size);
    if outcome.is_ok() || figures.to_bytes() != before {
        *bytes = figures.to_bytes();
    }
    outcome.map_err(reference_refused)
}

/// Adds a file by both, and compares all that they give and leave. What is in the buffer then is the library's.
fn call(report: &mut Report, figures: &mut Vec<u8>, buffer: &[u8], size: usize) -> bool {
    let before = figures.clone();
    let lent = buffer.to_vec();
    let library = by_library(report, figures, &lent, size);
    let mut other = before.clone();
    let reference = by_reference(&mut other, buffer, size);

    let input = (Hex(&before), Hex(buffer), size);
    report.answer(match reference {
        Ok(()) if other[LABELS..LABELS + 4] == before[LABELS..LABELS + 4] => {
            "added, no training label"
        }
        Ok(()) => "added, training labels",
        Err((12, _)) => "refused with 12",
        Err((13, _)) => "refused with 13",
        Err((15, _)) => "refused with 15",
        Err(BAD_BUFFER) => "status 255",
        Err(_) => "another",
    });
    report.equal(&input, "", library, reference);
    report.bytes(&input, "figures", figures, &other);
    report.bytes(&input, "file", &lent, buffer);
    if library.is_err() {
        report.bytes(&input, "figures after a refusal", figures, &before);
    }
    library.is_ok()
}

/// Watts of which many are equal: zeros, numbers below the normal ones, and the ends; without those below zero, or
/// above it; and zeros alone.
const WATTS_BITS: [&[u32]; 4] = [
    &[0, 0x8000_0000, 1, 0x8000_0001, 0x007f_ffff, 0x8080_0000, 0x7f7f_ffff, 0xff7f_ffff],
    &[0, 0x8000_0000, 1, 0x3f80_0000],
    &[0, 0x8000_0000, 0x8000_0001, 0xbf80_0000],
    &[0, 0x8000_0000],
];

/// The watts of a round: any, or some of these.
type Watts = Option<&'static [u32]>;

fn watts(random: &mut Random) -> Watts {
    random.one_in(2).then(|| random.pick(&WATTS_BITS))
}

/// A label of any fields, often with a sine next to a multiple of 32,768, and with these watts where it is valid.
fn label(random: &mut Random, watts: Watts) -> [u8; LABEL_BYTES] {
    let mut label = any_label(random);
    if random.one_in(2) {
        let sine = random.between(-32_768, 32_768) * 32_768 + random.between(-1, 1);
        put(&mut label, SINE, sine.clamp(-ONE, ONE) as i32 as u32);
    }
    if let Some(bits) = watts.filter(|_| label[READING] == 1) {
        put(&mut label, WATTS, random.pick(bits));
    }
    label
}

/// A sound file: mostly of few labels, rarely of about as many as a file may have.
fn sound(random: &mut Random, watts: Watts) -> label_files::File {
    let number = match random.below(256) {
        0 => random.between(1_020, 1_024) as usize,
        1..=8 => random.index(100),
        9..=32 => 0,
        _ => random.index(6),
    };
    let labels: Vec<_> = (0..number).map(|_| label(random, watts)).collect();
    any_file(random, &labels)
}

/// A file that may be damaged.
fn file(random: &mut Random, watts: Watts) -> Vec<u8> {
    let mut file = sound(random, watts);
    match random.below(16) {
        0 => label_files::damage_labels(random, &mut file),
        1 => return label_files::any_trailer(random),
        2 => {
            let bit = random.index(file.bytes.len() * 8);
            file.bytes[bit / 8] ^= 1 << (bit % 8);
        }
        3 => drop(file.bytes.drain(..random.index(file.bytes.len() + 1))),
        4 if random.one_in(8) => {
            let number = random.between(1_024, 1_026) as usize;
            let label = label(random, watts);
            return any_file(random, &vec![label; number]).bytes;
        }
        _ => {}
    }
    file.bytes
}

/// Adds a file that may be damaged, with a length that may be wrong.
fn any_call(random: &mut Random, report: &mut Report, figures: &mut Vec<u8>, watts: Watts) -> bool {
    let mut buffer = file(random, watts);
    let size = label_files::length(random, &mut buffer);
    call(report, figures, &buffer, size)
}

/// Files from nothing, or from about as many as there may be, those that are refused among them.
fn one_after_another(random: &mut Random, report: &mut Report) {
    let mut files = if random.one_in(4) { random.between(990, 999) as u32 } else { 0 };
    let mut figures = Figures { files, ..Figures::default() }.to_bytes().to_vec();
    let watts = watts(random);
    for _ in 0..random.index(12) {
        files += u32::from(any_call(random, report, &mut figures, watts));
    }
    report.equal(&Hex(&figures), "files", word(&figures, 0), files);
}

/// Figures with a zero below zero as one above it.
fn without_signs_of_zeros(figures: &[u8]) -> Vec<u8> {
    let mut figures = figures.to_vec();
    for at in HELD {
        if word(&figures, at + 4) == 1 << 31 {
            put(&mut figures, at + 4, 0);
        }
    }
    figures
}

/// Files in two orders: the figures are the same but for the sign of a zero.
fn other_orders(random: &mut Random, report: &mut Report) {
    let (number, watts) = (2 + random.index(5), watts(random));
    let mut files: Vec<Vec<u8>> = (0..number).map(|_| sound(random, watts).bytes).collect();
    let sum = |report: &mut Report, files: &[Vec<u8>]| {
        let mut figures = vec![0; FIGURES_BYTES];
        for file in files {
            call(report, &mut figures, file, file.len());
        }
        figures
    };
    let figures = sum(report, &files);
    for last in (1..files.len()).rev() {
        files.swap(last, random.index(last + 1));
    }
    let shuffled = sum(report, &files);
    report.answer(if figures == shuffled {
        "another order, the same figures"
    } else {
        "another order, another zero"
    });
    report.bytes(
        &Hex(&figures),
        "another order",
        &without_signs_of_zeros(&figures),
        &without_signs_of_zeros(&shuffled),
    );
}

/// Watts that are finite.
fn finite(random: &mut Random) -> f32 {
    if let Some(bits) = watts(random) {
        return f32::from_bits(random.pick(bits));
    }
    loop {
        let watts = f32::from_bits(inputs::reading_bits(random));
        if watts.is_finite() {
            return watts;
        }
    }
}

/// Watts that are not.
fn not_finite(random: &mut Random) -> f32 {
    loop {
        let watts = f32::from_bits(inputs::reading_bits(random));
        if !watts.is_finite() {
            return watts;
        }
    }
}

/// The most that a total of so many labels may be.
fn most(labels: u32) -> i64 {
    i64::from(labels) * ONE
}

/// A total up to the most in size, often one of the ends.
fn total(random: &mut Random, most: i64) -> i64 {
    match random.below(4) {
        0 => random.pick(&[-most, most, 0]),
        _ => random.between(-most, most),
    }
}

/// Figures that 15 does not refuse.
pub fn good(random: &mut Random) -> Figures {
    let files = match random.below(4) {
        0 => random.pick(&[0, 1, 998, 999]),
        1 => random.index(4) as u32,
        _ => random.below(FILES_MAX.into()) as u32,
    };
    let labels = up_to(random, files * RECORDS_MAX as u32);
    let valid = up_to(random, labels);
    let [least, greatest] = [0; 2].map(|_| (valid > 0).then(|| finite(random)));
    Figures {
        files,
        labels,
        dark: up_to(random, labels),
        valid,
        least,
        greatest,
        sines: total(random, most(labels)),
        squares: total(random, most(labels)).unsigned_abs(),
    }
}

/// Takes one of the figures to a bound of 15 or over it.
pub fn damage(random: &mut Random, figures: &mut Figures) {
    let Figures { files, labels, .. } = *figures;
    let most = most(labels);
    match random.below(14) {
        0 => figures.files = about(random, FILES_MAX - 1),
        // So that the labels are over those of the files.
        1 => figures.files = up_to(random, files),
        2 | 3 => figures.labels = about(random, files.wrapping_mul(RECORDS_MAX as u32)),
        // So that all else is over the labels.
        4 => figures.labels = up_to(random, labels),
        5 => figures.dark = about(random, labels),
        6 => figures.valid = about(random, labels),
        7 => figures.valid = random.index(2) as u32,
        8 => figures.least = figures.least.is_none().then(|| finite(random)),
        9 => figures.greatest = figures.greatest.is_none().then(|| finite(random)),
        10 => figures.least = Some(not_finite(random)),
        11 => figures.greatest = Some(not_finite(random)),
        12 => {
            let over = random.pick(&[0, 1, 1, ONE]);
            let ends = [i64::MIN, i64::MIN + 1, i64::MAX, random.u64() as i64];
            let end = random.pick(&ends);
            figures.sines = random.pick(&[-most - over, most + over, end]);
        }
        _ => {
            let over = random.pick(&[0, 1, 1, 1 << 30]);
            let ends = [1 << 63, u64::MAX, random.u64()];
            let end = random.pick(&ends);
            figures.squares = random.pick(&[most as u64 + over, end]);
        }
    }
}

/// Any figures, good or damaged, with any file.
fn any_figures(random: &mut Random, report: &mut Report) {
    let mut figures = good(random);
    let damages = random.pick(&[0, 0, 1, 1, 1, 2]);
    for _ in 0..damages {
        damage(random, &mut figures);
    }
    let mut bytes = figures.to_bytes().to_vec();
    for at in HELD {
        match (word(&bytes, at), random.below(4)) {
            (0, 0) => put(&mut bytes, at + 4, inputs::reading_bits(random)),
            (0, _) => {}
            (_, 0) => put(&mut bytes, at, (1 + random.u32() % 3) << random.below(31)),
            (_, 1) => put(&mut bytes, at, random.u32() | 1),
            _ => {}
        }
    }
    match random.below(40) {
        0 => {
            let at = random.index(FIGURES_BYTES);
            bytes[at] ^= 1 + random.below(255) as u8;
        }
        1 => bytes = random.bytes(FIGURES_BYTES),
        2 => {
            let lengths = [0, 47, 49, random.index(100)];
            bytes.resize(random.pick(&lengths), 0);
        }
        _ => {}
    }
    let watts = watts(random);
    if any_call(random, report, &mut bytes, watts) && random.one_in(2) {
        any_call(random, report, &mut bytes, watts);
    }
}
