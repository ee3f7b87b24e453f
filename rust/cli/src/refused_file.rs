//! Why a label file was refused: what of its trailer, or which label and which rule. The verdict is the library's.
//! The rule that a label breaks is found by asking the library of each field in turn, in a file of one label.

use std::ops::Range;
use std::path::Path;

use yurdelmiz::{read, Counts, Form, Label, LabelFile, Refusal, Refused, Shade, Side};

use crate::date;
use crate::decimal::grouped;
use crate::failure::Failure;
use crate::input::{looks_like_text, End};
use crate::quote;

pub fn failure(path: &Path, end: &End, refused: Refused) -> Failure {
    Failure::refused(format!("{}: {}", quote::path(path), why(end, refused)))
}

pub fn why(end: &End, refused: Refused) -> String {
    match refused.refusal {
        Refusal::Trailer => trailer_fault(end),
        Refusal::Labels => labels_fault(&end.bytes, refused.place),
        _ => refused.to_string(),
    }
}

/// The bytes of a number in a trailer.
const WORD_SIZE: usize = 4;

fn word(bytes: &[u8], at: usize) -> u32 {
    u32::from_le_bytes(bytes[at..at + WORD_SIZE].try_into().expect("4 bytes"))
}

/// The distance, with which a file of at least a trailer ends.
fn distance_of(file: &[u8]) -> Option<u32> {
    Form::ALL
        .iter()
        .any(|form| file.len() >= form.size())
        .then(|| word(file, file.len() - WORD_SIZE))
}

struct Trailer {
    form: Form,
    /// What it says; with 16 bytes it says nothing of dark labels, and 0 stands here.
    counts: Counts,
    distance: u32,
}

impl Trailer {
    /// The trailer whose form the distance tells, where it tells one and the file has that many bytes.
    fn of(file: &[u8]) -> Option<Trailer> {
        let distance = distance_of(file)?;
        let rest = distance as usize % Label::SIZE;
        let form = Form::ALL.into_iter().find(|form| form.size() % Label::SIZE == rest)?;
        let bytes = &file[file.len().checked_sub(form.size())?..];
        let [labels, training, test] = [0, 4, 8].map(|at| word(bytes, at));
        let [dark, dark_test] = match form {
            Form::Bytes16 => [0, 0],
            Form::Bytes24 => [12, 16].map(|at| word(bytes, at)),
        };
        let counts = Counts { labels, training, test, dark, dark_test };
        Some(Trailer { form, counts, distance })
    }

    /// The first thing that 12 asks and that it does not keep.
    fn fault(&self, length: u64) -> String {
        let Trailer { form, distance, .. } = *self;
        let Counts { labels, training, test, dark, dark_test } = self.counts;
        let whole = u64::from(labels) * Label::SIZE as u64 + form.size() as u64;
        if labels as usize > LabelFile::MOST_LABELS {
            format!("says {} labels, and 1,024 are the most", grouped(labels))
        } else if u64::from(distance) != whole {
            format!(
                "says {} labels, which begin {} bytes before the end, and a distance of {} bytes",
                grouped(labels),
                grouped(whole),
                grouped(distance)
            )
        } else if whole > length {
            format!(
                "says {} labels, which make {} bytes with it, and the file has {}: its start is missing",
                grouped(labels),
                grouped(whole),
                grouped(length)
            )
        } else if u64::from(training) + u64::from(test) > u64::from(labels) {
            format!(
                "says {} training and {} test labels, more together than its {} labels",
                grouped(training),
                grouped(test),
                grouped(labels)
            )
        } else if dark > labels {
            format!("says {} dark labels, more than its {} labels", grouped(dark), grouped(labels))
        } else {
            let (kind, most) = if dark_test > test { ("test", test) } else { ("dark", dark) };
            format!(
                "says {} dark test labels, more than its {} {kind} labels",
                grouped(dark_test),
                grouped(most)
            )
        }
    }
}

fn trailer_fault(end: &End) -> String {
    let Some(distance) = distance_of(&end.bytes) else {
        return match end.length {
            0 => {
                "the file is empty: a label file has a trailer of 16 bytes at the least".to_owned()
            }
            length => format!("the file has {length} bytes, and a trailer alone has 16 or 24"),
        };
    };
    let what = match Trailer::of(&end.bytes) {
        Some(trailer) => {
            let (size, fault) = (trailer.form.size(), trailer.fault(end.length));
            format!("the trailer, its last {size} bytes, {fault}")
        }
        None => format!(
            "its last 4 bytes say a distance of {} bytes, and the file, of {}, has no trailer with it: a \
             distance is 24 bytes a label and 16 or 24",
            grouped(distance),
            grouped(end.length)
        ),
    };
    let kind = if looks_like_text(&end.bytes) {
        "it is text, and no label file"
    } else {
        "it is no label file, or not whole"
    };
    format!("{what}; {kind}")
}

fn labels_fault(file: &[u8], place: u32) -> String {
    let Trailer { form, counts, distance } = Trailer::of(file).expect("an accepted trailer");
    let labels = file.len() - distance as usize..file.len() - form.size();
    let labels: Vec<&[u8]> = file[labels].chunks_exact(Label::SIZE).collect();
    match labels.get(place as usize) {
        Some(label) => {
            let back = form.distance(labels.len() - place as usize);
            format!(
                "label {place} (from 0, {} bytes before the end): {}",
                grouped(back as u64),
                field_fault(label)
            )
        }
        None => counts_fault(&counts, &labels),
    }
}

/// The first two counts of which one is not that of the labels.
fn counts_fault(stored: &Counts, labels: &[&[u8]]) -> String {
    let count =
        |wanted: &dyn Fn(&[u8]) -> bool| labels.iter().filter(|label| wanted(label)).count() as u32;
    let on = |side: Side| move |label: &[u8]| label[SIDE] == side.to_byte();
    let dark = |label: &[u8]| label[SHADE] == Shade::Dark.to_byte();
    let sides = [count(&on(Side::Training)), count(&on(Side::Test))];
    let (kinds, said, found) = if [stored.training, stored.test] != sides {
        (["training", "test"], [stored.training, stored.test], sides)
    } else {
        let dark_test = count(&|label| dark(label) && on(Side::Test)(label));
        (["dark", "dark test"], [stored.dark, stored.dark_test], [count(&dark), dark_test])
    };
    let ([one, other], said, found) = (kinds, said.map(grouped), found.map(grouped));
    format!(
        "the trailer says {} {one} and {} {other} labels, and there are {} and {}",
        said[0], said[1], found[0], found[1]
    )
}

/// Where the fields of a label begin.
const TIME: usize = 0;
const REVOLUTION: usize = 8;
const SIDE: usize = 12;
const SHADE: usize = 13;
const READING: usize = 14;
const ZERO: usize = 15;
const ELEVATION: usize = 16;
const WATTS: usize = 20;

/// Whether the library finds no field rule broken in a file of this one label.
fn keeps_rules(label: &[u8; Label::SIZE]) -> bool {
    let mut file = label.to_vec();
    for number in [1, 0, 0, Form::Bytes16.distance(1) as u32] {
        file.extend(number.to_le_bytes());
    }
    // With the counts wrong at most, the place is behind the label.
    read(&file, file.len()) != Err(Refused { refusal: Refusal::Labels, place: 0 })
}

/// The side that the library accepts with a revolution.
fn side_of(revolution: &[u8]) -> Option<Side> {
    Side::ALL.into_iter().find(|side| {
        let mut label = [0; Label::SIZE];
        label[REVOLUTION..SIDE].copy_from_slice(revolution);
        label[SIDE] = side.to_byte();
        keeps_rules(&label)
    })
}

/// The first rule that a label breaks, in document 01's order.
pub fn field_fault(label: &[u8]) -> String {
    // This part alone, in a label that is otherwise all zeros.
    let breaks = |part: Range<usize>| {
        let mut alone = [0; Label::SIZE];
        alone[part.clone()].copy_from_slice(&label[part]);
        !keeps_rules(&alone)
    };
    let revolution = word(label, REVOLUTION) as i32;
    let elevation = word(label, ELEVATION) as i32;
    if breaks(TIME..REVOLUTION) {
        let time = i64::from_le_bytes(label[TIME..REVOLUTION].try_into().expect("8 bytes"));
        format!("its time, {}, is outside 1900 March 1 to 2100 February 28", date::shown(time))
    } else if breaks(REVOLUTION..SHADE) {
        let has = match Side::try_from(label[SIDE]) {
            Ok(side) => format!("its side is {} ({side})", label[SIDE]),
            Err(_) => format!("its side is {}, which is none", label[SIDE]),
        };
        match side_of(&label[REVOLUTION..SIDE]) {
            Some(due) => format!("{has}, and revolution {revolution} is {} ({due})", due.to_byte()),
            None => has,
        }
    } else if breaks(SHADE..READING) {
        let last = Shade::ALL.last().map_or(0, |shade| shade.to_byte());
        format!("its shade is {}, and 0 to {last} are known", label[SHADE])
    } else if breaks(READING..ZERO) {
        format!("its reading is {}, and 0 to 2 are known", label[READING])
    } else if breaks(ZERO..ELEVATION) {
        format!("its byte 15 is {}, and is always 0", label[ZERO])
    } else if breaks(ELEVATION..WATTS) {
        format!("its elevation sine is {}, beyond one, which is 1,073,741,824", grouped(elevation))
    } else if breaks(READING..Label::SIZE) {
        let bits = word(label, WATTS);
        let why = if label[READING] == 1 {
            "which are not finite"
        } else {
            "and a reading without watts has 0"
        };
        format!("the bits of its watts are {bits:08x}, {why}")
    } else {
        Refusal::Labels.sentence().to_owned()
    }
}
