//! Label files, sound and damaged, with either trailer.

use reference::eclipse::Shade;
use reference::file::{file_bytes, label_day};
use reference::label::{Side, LABEL_BYTES};
use reference::telemetry::RECORD_BYTES;
use reference::trailer::{Counts, Form};

use crate::inputs;
use crate::random::Random;

/// Where a label has its side and its shade.
const SIDE: usize = 12;
const SHADE: usize = 13;

/// Bytes of a number in a trailer.
const WORD: usize = 4;

/// A file with bytes of others ahead of its labels.
pub struct File {
    pub bytes: Vec<u8>,
    pub form: Form,
    pub labels: usize,
}

impl File {
    /// The labels and the trailer that their bytes make, behind so many bytes.
    pub fn of(random: &mut Random, form: Form, labels: &[u8], ahead: usize) -> File {
        let mut file =
            File { bytes: random.bytes(ahead), form, labels: labels.len() / LABEL_BYTES };
        file.bytes.extend(labels);
        let trailer = counted(labels).trailer(form);
        file.bytes.extend(trailer);
        file
    }

    /// Where the first label begins.
    pub fn first(&self) -> usize {
        self.bytes.len() - self.form.distance(self.labels)
    }

    /// Where the trailer begins.
    fn trailer(&self) -> usize {
        self.bytes.len() - self.form.bytes()
    }

    fn label(&mut self, number: usize) -> &mut [u8] {
        let at = self.first() + number * LABEL_BYTES;
        &mut self.bytes[at..at + LABEL_BYTES]
    }

    /// Puts a number into the trailer.
    fn put(&mut self, word: usize, number: u32) {
        let at = self.trailer() + WORD * word;
        put(&mut self.bytes, at, &number.to_le_bytes());
    }

    /// How many numbers the trailer has, the distance last.
    fn words(&self) -> usize {
        self.form.bytes() / WORD
    }

    /// Puts the counts of the labels as they are into the trailer.
    fn restate(&mut self) {
        let (first, trailer) = (self.first(), self.trailer());
        let stated = counted(&self.bytes[first..trailer]).trailer(self.form);
        put(&mut self.bytes, trailer, &stated);
    }
}

/// The counts of labels by their bytes.
fn counted(labels: &[u8]) -> Counts {
    let count = |wanted: &dyn Fn(&[u8]) -> bool| {
        labels.chunks_exact(LABEL_BYTES).filter(|label| wanted(label)).count() as u32
    };
    let on = |side: Side| move |label: &[u8]| label[SIDE] == side as u8;
    let dark = |label: &[u8]| label[SHADE] == Shade::Dark as u8;
    Counts {
        labels: count(&|_| true),
        training: count(&on(Side::Training)),
        test: count(&on(Side::Test)),
        dark: count(&dark),
        dark_test: count(&|label| dark(label) && on(Side::Test)(label)),
    }
}

fn put(bytes: &mut [u8], at: usize, with: &[u8]) {
    bytes[at..at + with.len()].copy_from_slice(with);
}

/// How many bytes of others stand ahead of a file.
pub fn bytes_ahead(random: &mut Random) -> usize {
    if random.one_in(2) {
        random.index(60)
    } else {
        0
    }
}

/// The labels of a day, on which there are often labels of every shade.
fn labels(random: &mut Random) -> Vec<u8> {
    loop {
        let (elements, telemetry) = if random.one_in(4) {
            inputs::eclipse(random)
        } else {
            let elements = inputs::elements(random);
            (elements, inputs::telemetry(random, &elements))
        };
        let records = telemetry.len() / RECORD_BYTES;
        let mut output = vec![0; file_bytes(records)];
        if label_day(&elements, &telemetry, &mut output).is_ok() {
            output.truncate(records * LABEL_BYTES);
            return output;
        }
    }
}

/// A sound file; in some the shades are changed, and the counts with them.
pub fn sound(random: &mut Random) -> File {
    let labels = labels(random);
    let (form, ahead) = (random.pick(&Form::ALL), bytes_ahead(random));
    let mut file = File::of(random, form, &labels, ahead);
    if random.one_in(3) {
        change_shades(random, &mut file, 3);
        file.restate();
    }
    file
}

/// A file of one label repeated, about as often as a file may hold.
pub fn repeated(random: &mut Random, numbers: (i64, i64)) -> File {
    let labels = loop {
        let labels = labels(random);
        if !labels.is_empty() {
            break labels;
        }
    };
    let number = random.between(numbers.0, numbers.1) as usize;
    let (form, ahead) = (random.pick(&Form::ALL), bytes_ahead(random));
    File::of(random, form, &labels[..LABEL_BYTES].repeat(number), ahead)
}

/// Changes one field of a label to a value near a field rule's edge, or to anything.
fn damage_label(random: &mut Random, file: &mut File) {
    let bits = inputs::reading_bits(random).to_le_bytes();
    let kind = random.below(9);
    let number = random.index(file.labels);
    let label = file.label(number);
    match kind {
        0 => put(label, 0, &inputs::any_time(random).to_le_bytes()),
        1 => put(label, 8, &random.u32().to_le_bytes()),
        2 => {
            // The side follows, so that only the counts may be wrong.
            let revolution = random.between(-200, 200) as i32;
            put(label, 8, &revolution.to_le_bytes());
            label[SIDE] = Side::of_revolution(revolution) as u8;
        }
        3 => label[SIDE] = random.below(4) as u8,
        4 => label[SHADE] = random.pick(&[0, 1, 2, 3, 4, 255]),
        5 => {
            label[14] = random.below(4) as u8;
            if random.one_in(2) {
                put(label, 20, &bits);
            }
        }
        6 => label[15] = random.below(3) as u8,
        7 => {
            let one = 1 << 30;
            let sine = random.pick(&[-one - 1, -one, one, one + 1, i32::MIN, i32::MAX, 0]);
            put(label, 16, &sine.to_le_bytes());
        }
        _ => put(label, 20, &bits),
    }
}

/// Changes fields of one label or more, where there are labels.
pub fn damage_labels(random: &mut Random, file: &mut File) {
    if file.labels > 0 {
        damage_label(random, file);
        while random.one_in(3) {
            damage_label(random, file);
        }
    }
}

/// Changes the shade of every label, to one of so many.
fn change_shades(random: &mut Random, file: &mut File, shades: u64) {
    for number in 0..file.labels {
        file.label(number)[SHADE] = random.below(shades) as u8;
    }
}

/// Changes one number of the trailer; by 8 the distance becomes that of the other trailer.
fn damage_trailer(random: &mut Random, file: &mut File) {
    let words = file.words();
    // The distance twice as often.
    let word = random.index(words + 1).min(words - 1);
    let at = file.trailer() + WORD * word;
    let stored = u32::from_le_bytes(file.bytes[at..at + WORD].try_into().expect("4 bytes"));
    let other = match random.below(5) {
        0 => stored.wrapping_add(random.pick(&[1, 8, 16, 24])),
        1 | 2 => stored.wrapping_sub(random.pick(&[1, 8, 16, 24])),
        3 => random.pick(&[0, 16, 24, 1_024, 1_025, u32::MAX, 1 << 31]),
        _ => random.u32() >> random.below(32),
    };
    file.put(word, other);
}

/// Counts that are at one bound of 12 or one beyond it and keep the others, or are one off.
fn counts_at_bounds(random: &mut Random, file: &mut File) {
    let Counts { labels, training, test, dark, dark_test } =
        counted(&file.bytes[file.first()..file.trailer()]);
    let beyond = random.below(2) as u32;
    let one_off = |random: &mut Random, count: u32| {
        if random.one_in(2) {
            count + 1
        } else {
            count.saturating_sub(1)
        }
    };
    let kind = match file.form {
        Form::Bytes16 => random.below(2),
        Form::Bytes24 => random.pick(&[0, 1, 2, 3, 3, 4, 4, 5, 6]),
    };
    match kind {
        0 => {
            let training = random.below(u64::from(labels) + 1) as u32;
            file.put(1, training);
            file.put(2, labels - training + beyond);
        }
        1 if random.one_in(2) => file.put(1, one_off(random, training)),
        1 => file.put(2, one_off(random, test)),
        2 => file.put(3, labels + beyond),
        3 => {
            file.put(3, labels);
            file.put(4, test + beyond);
        }
        4 => {
            // Every label a test label, so that dark alone bounds.
            let dark = random.below(u64::from(labels) + 1) as u32;
            file.put(1, 0);
            file.put(2, labels);
            file.put(3, dark);
            file.put(4, dark + beyond);
        }
        5 => file.put(3, one_off(random, dark)),
        _ => file.put(4, one_off(random, dark_test)),
    }
}

/// Numbers at the end of a file that two trailers could begin with, and the distance of one or the other.
fn two_trailers(random: &mut Random, file: &mut File) {
    let most = file.bytes.len() / LABEL_BYTES + 1;
    let [of_24, of_16] = [0; 2].map(|_| random.index(most + 1));
    let distance = match random.below(4) {
        0 => Form::Bytes16.distance(of_24),
        1 => Form::Bytes24.distance(of_16),
        2 => Form::Bytes16.distance(of_16),
        _ => Form::Bytes24.distance(of_24),
    };
    let few = |random: &mut Random| random.index(3);
    let words = [of_24, few(random), of_16, few(random), few(random), distance];
    let bytes: Vec<u8> = words.iter().flat_map(|word| (*word as u32).to_le_bytes()).collect();
    let at = file.bytes.len().saturating_sub(bytes.len());
    file.bytes.truncate(at);
    file.bytes.extend(bytes);
}

/// Changes the trailer to a number of labels, with the distance that goes with it.
fn recount(random: &mut Random, file: &mut File) {
    let labels = match random.below(3) {
        0 => random.pick(&[1_024, 1_025, 178_956_970, 178_956_971, u32::MAX]),
        _ => random.below(file.bytes.len() as u64 / LABEL_BYTES as u64 + 2) as u32,
    };
    let distance = labels.wrapping_mul(LABEL_BYTES as u32).wrapping_add(file.form.bytes() as u32);
    file.put(0, labels);
    file.put(file.words() - 1, distance);
    if random.one_in(2) {
        let training = random.below(u64::from(labels) + 2) as u32;
        file.put(1, training);
        file.put(2, labels.wrapping_sub(training));
    }
}

/// Trailer counts whose sum passes 32 bits.
fn overflow_counts(random: &mut Random, file: &mut File) {
    let training = random.u32();
    file.put(1, training);
    file.put(2, training.wrapping_neg());
}

/// The end of a file, about as long as a trailer.
fn short(random: &mut Random, file: &mut File) {
    let length = (random.between(15, 25) as usize).min(file.bytes.len());
    file.bytes.drain(..file.bytes.len() - length);
}

pub fn damaged(random: &mut Random) -> Vec<u8> {
    let mut file = sound(random);
    match random.below(28) {
        0 | 1 => {}
        2 => {
            let bit = random.index(file.bytes.len() * 8);
            file.bytes[bit / 8] ^= 1 << (bit % 8);
        }
        3 => {
            let at = random.index(file.bytes.len());
            file.bytes[at] = random.u64() as u8;
        }
        4..=6 => damage_trailer(random, &mut file),
        7..=10 => counts_at_bounds(random, &mut file),
        11 => two_trailers(random, &mut file),
        12 => recount(random, &mut file),
        13 => overflow_counts(random, &mut file),
        14 => file.bytes.truncate(random.index(file.bytes.len() + 1)),
        15 => drop(file.bytes.drain(..random.index(file.bytes.len() + 1))),
        16 => short(random, &mut file),
        17 => {
            let length = random.index(100);
            file.bytes = random.bytes(length);
        }
        18 => file = repeated(random, (1_023, 1_026)),
        19 | 20 => {
            let shades = random.pick(&[3, 4]);
            change_shades(random, &mut file, shades);
            if random.one_in(2) {
                file.restate();
            }
        }
        _ if file.labels > 0 => damage_labels(random, &mut file),
        _ => damage_trailer(random, &mut file),
    }
    file.bytes
}

/// Labels that keep the field rules, of any sides and shades.
fn any_labels(random: &mut Random, number: usize) -> Vec<u8> {
    let mut labels = vec![0; number * LABEL_BYTES];
    for label in labels.chunks_exact_mut(LABEL_BYTES) {
        let revolution: i32 = random.pick(&[16, 17, 65]);
        put(label, 8, &revolution.to_le_bytes());
        label[SIDE] = Side::of_revolution(revolution) as u8;
        label[SHADE] = random.below(3) as u8;
    }
    labels
}

/// A label of any fields that keep the field rules, often at their edges.
pub fn any_label(random: &mut Random) -> [u8; LABEL_BYTES] {
    let mut label = [0; LABEL_BYTES];
    let time = inputs::any_time(random).clamp(inputs::TIME_MIN, inputs::TIME_MAX);
    put(&mut label, 0, &time.to_le_bytes());
    let revolution =
        if random.one_in(2) { random.u32() as i32 } else { random.between(-200, 200) as i32 };
    put(&mut label, 8, &revolution.to_le_bytes());
    label[SIDE] = Side::of_revolution(revolution) as u8;
    label[SHADE] = random.below(3) as u8;
    label[14] = random.below(3) as u8;
    if label[14] == 1 {
        let bits = inputs::reading_bits(random);
        // Without its exponent it is finite.
        let finite = if f32::from_bits(bits).is_finite() { bits } else { bits & 0x807f_ffff };
        put(&mut label, 20, &finite.to_le_bytes());
    }
    let one = 1 << 30;
    let sine = match random.below(4) {
        0 => random.pick(&[-one, one, 0]),
        _ => random.between(-one, one),
    };
    put(&mut label, 16, &(sine as i32).to_le_bytes());
    label
}

/// A file that is quickly made, with nothing in front, of which the labels matter.
pub fn any_fields(random: &mut Random, number: usize) -> File {
    let labels: Vec<u8> = (0..number).flat_map(|_| any_label(random)).collect();
    let form = random.pick(&Form::ALL);
    File::of(random, form, &labels, 0)
}

/// The file of labels, with either trailer, behind any bytes.
pub fn any_file(random: &mut Random, labels: &[[u8; LABEL_BYTES]]) -> File {
    let (form, ahead) = (random.pick(&Form::ALL), bytes_ahead(random));
    File::of(random, form, &labels.concat(), ahead)
}

/// A file that is quickly made, of which the trailer matters: sound, damaged in its trailer, or cut to about
/// as much as that.
pub fn any_trailer(random: &mut Random) -> Vec<u8> {
    let labels = match random.below(32) {
        0 => random.between(1_023, 1_026) as usize,
        1..=4 => 0,
        _ => random.index(24),
    };
    let labels = any_labels(random, labels);
    let (form, ahead) = (random.pick(&Form::ALL), bytes_ahead(random));
    let mut file = File::of(random, form, &labels, ahead);
    match random.below(20) {
        0..=6 => {}
        7..=9 => damage_trailer(random, &mut file),
        10..=14 => counts_at_bounds(random, &mut file),
        15 => two_trailers(random, &mut file),
        16 => recount(random, &mut file),
        17 => overflow_counts(random, &mut file),
        18 => {
            let length = random.index(41).min(file.bytes.len());
            file.bytes.drain(..file.bytes.len() - length);
        }
        _ => {
            let length = random.index(41);
            file.bytes = random.bytes(length);
        }
    }
    file.bytes
}

/// A length that is given with a file: mostly its own; or shorter, beyond the buffer, or with other bytes
/// behind it.
pub fn length(random: &mut Random, buffer: &mut Vec<u8>) -> usize {
    match random.below(20) {
        0 => random.index(buffer.len() + 1),
        1 => buffer.len() + 1 + random.index(40),
        2 => random.pick(&[usize::MAX, usize::MAX - 15, usize::MAX - 23, 1 << 32, 1 << 63]),
        3 => {
            let length = buffer.len();
            let behind = random.index(40);
            buffer.extend(random.bytes(behind));
            length
        }
        _ => buffer.len(),
    }
}
