//! Salvage by the library and by the reference, of a file of some labels: cut at every byte, changed at every byte
//! to every other, both at once, and with every room.

use reference::eclipse::Shade;
use reference::file::file_bytes;
use reference::label::{Label, Side, LABEL_BYTES};
use reference::salvage::Salvaged;
use reference::telemetry::Reading;
use reference::trailer::{Counts, Form};

/// What an output holds before a call.
const FILL: u8 = 0xcc;

fn label(time: i64, revolution: i32, shade: Shade, reading: Reading, elevation_sine: i32) -> Label {
    let side = Side::of_revolution(revolution);
    Label { time, revolution, side, shade, reading, elevation_sine }
}

/// Labels of every side, shade and reading, some at the edges of the field rules.
fn labels() -> [Label; 6] {
    let one = 1 << 30;
    [
        label(86_400, 17, Shade::Dark, Reading::Valid(10.0), -1),
        label(-2_834_956_800, 65, Shade::Dark, Reading::Saturated, one),
        label(3_476_476_799, 16, Shade::Lit, Reading::Valid(f32::MAX), -one),
        label(0, -1, Shade::Part, Reading::Missing, 0),
        label(-138_406_500, i32::MIN, Shade::Dark, Reading::Valid(-0.0), 123_456_789),
        label(1, i32::MAX, Shade::Dark, Reading::Valid(f32::MIN_POSITIVE), -123_456_789),
    ]
}

/// A file of these labels with each trailer.
fn files() -> [Vec<u8>; 2] {
    let counts = Counts { labels: 6, training: 2, test: 2, dark: 4, dark_test: 1 };
    let body: Vec<u8> = labels().iter().flat_map(Label::to_bytes).collect();
    let files = Form::ALL.map(|form| [body.clone(), counts.trailer(form)].concat());
    for file in &files {
        assert!(yurdelmiz::read(file, file.len()).is_ok());
    }
    files
}

/// Salvages by both with so much room, and compares all that they give and leave.
#[track_caller]
fn compare(bytes: &[u8], room: usize) -> Option<Salvaged> {
    let [mut library_output, mut reference_output] = [0; 2].map(|_| vec![FILL; room]);
    let library = yurdelmiz::salvage(bytes, &mut library_output)
        .map(|salvaged| Salvaged { labels: salvaged.labels, dropped: salvaged.dropped })
        .map_err(yurdelmiz::Refusal::number);
    let reference = reference::salvage::salvage(bytes, &mut reference_output)
        .map_err(reference::Refusal::number);
    assert_eq!(library, reference);
    assert!(library_output == reference_output, "the outputs differ");
    library.ok()
}

/// The same with some room to spare.
#[track_caller]
fn salvaged(bytes: &[u8]) -> Salvaged {
    let room = file_bytes(bytes.len() / LABEL_BYTES) + 5;
    compare(bytes, room).expect("room for every label")
}

#[test]
fn cut_at_every_byte() {
    for file in files() {
        for cut in 0..=file.len() {
            let labels = (cut / LABEL_BYTES).min(6);
            let dropped = (cut - labels * LABEL_BYTES) as u64;
            let expected = Salvaged { labels: labels as u32, dropped };
            assert_eq!(salvaged(&file[..cut]), expected, "cut at {cut}");
        }
    }
}

/// Every byte changed to every other: the labels ahead of it are kept, and its own with all behind it, or not.
#[test]
fn changed_at_every_byte() {
    for file in files() {
        let mut ended = 0;
        for at in 0..file.len() {
            let mut bytes = file.clone();
            for change in 1..=255 {
                bytes[at] = file[at] ^ change;
                let labels = salvaged(&bytes).labels as usize;
                let number = at / LABEL_BYTES;
                assert!(labels == 6 || labels == number, "byte {at} by {change}: {labels} kept");
                ended += usize::from(labels < 6);
            }
        }
        assert!(ended > 10_000, "{ended}");
    }
}

/// Every bit changed, and the bytes cut at every place.
#[test]
fn changed_and_cut() {
    for file in files() {
        for bit in 0..8 * file.len() {
            let mut bytes = file.clone();
            bytes[bit / 8] ^= 1 << (bit % 8);
            let whole = salvaged(&bytes).labels as usize;
            for cut in 0..file.len() {
                let labels = salvaged(&bytes[..cut]).labels as usize;
                assert_eq!(labels, whole.min(cut / LABEL_BYTES), "bit {bit}, cut at {cut}");
            }
        }
    }
}

/// Every room up to more than all bytes given would ask.
#[test]
fn every_room() {
    for file in files() {
        for cut in 0..=file.len() {
            let enough = file_bytes((cut / LABEL_BYTES).min(6));
            for room in 0..file_bytes(8) {
                let told = compare(&file[..cut], room);
                assert_eq!(told.is_some(), room >= enough, "cut at {cut}, {room} bytes");
            }
        }
    }
}

/// A label repeated about as often as a file may hold, with a broken one at any of the last places or none.
#[test]
fn about_the_most_labels() {
    let one = labels()[1].to_bytes();
    for number in 1_021..=1_027 {
        let bytes = one.repeat(number);
        assert_eq!(salvaged(&bytes).labels as usize, number.min(1_024));
        for broken in 1_020..number {
            let mut bytes = bytes.clone();
            bytes[broken * LABEL_BYTES + 15] = 1;
            assert_eq!(salvaged(&bytes).labels as usize, broken.min(1_024));
        }
    }
}
