//! Packets beyond what the vectors hold: every cut of a small day, the longest day, each cause of a refusal and
//! their order, what a refusal leaves, and the bytes of the state.

mod common;

use common::{longest_day, telemetry, ELEMENTS, LAST_TIME};
use reference::day_bytes::{elements_of_bytes, elements_to_bytes, DAY_BYTES};
use reference::file::{file_bytes, label_day, read};
use reference::label::LABEL_BYTES;
use reference::orbit::Elements;
use reference::packets::{Day, HELD_MAX};
use reference::trailer::Counts;
use reference::{Refusal, Refused};

/// What the output holds before a call.
const FILL: u8 = 0xcc;

/// Four records with labels of all sides and shades, one of them dark and on the test side.
fn small_day() -> Vec<u8> {
    let bytes = telemetry([0, 31_100, 29_000, 37_100]);
    let counts = Counts { labels: 4, training: 1, test: 2, dark: 1, dark_test: 1 };
    assert_eq!(labelled(&bytes).1, counts);
    bytes
}

/// The label file of a day at once.
fn labelled(telemetry: &[u8]) -> (Vec<u8>, Counts) {
    let mut file = vec![0; file_bytes(telemetry.len() / 16)];
    let counts = label_day(&ELEMENTS, telemetry, &mut file).unwrap();
    (file, counts)
}

fn opened() -> Day {
    Day::open(&ELEMENTS).unwrap()
}

/// Takes a packet with exactly the room for its labels and with more, and gives the labels.
#[track_caller]
fn take(day: &mut Day, packet: &[u8]) -> Vec<u8> {
    let before = *day;
    let completed = (usize::from(day.have) + packet.len()) / 16;
    let exact = completed * LABEL_BYTES;
    let mut output = vec![FILL; exact];
    assert_eq!(day.packet(packet, &mut output), Ok(completed));
    for more in [1, 24, 50] {
        let mut again = before;
        let mut roomy = vec![FILL; exact + more];
        assert_eq!(again.packet(packet, &mut roomy), Ok(completed));
        assert_eq!((again, &roomy[..exact]), (*day, &output[..]));
        assert!(roomy[exact..].iter().all(|byte| *byte == FILL), "written behind the labels");
    }
    assert_eq!(day.counts.labels, before.counts.labels + completed as u32);
    assert_eq!((day.elements, day.closed), (ELEMENTS, false));
    output
}

/// Takes packets and closes: the file in pieces.
#[track_caller]
fn fed<'a>(packets: impl IntoIterator<Item = &'a [u8]>) -> Vec<u8> {
    let mut day = opened();
    let mut file = Vec::new();
    for packet in packets {
        file.extend(take(&mut day, packet));
    }
    let before = day;
    let mut trailer = [FILL; 30];
    assert_eq!(day.close(&mut trailer), Ok(before.counts));
    assert_eq!(day, Day { closed: true, ..before });
    assert_eq!(trailer[24..], [FILL; 6]);
    file.extend(&trailer[..24]);
    file
}

/// That a packet is refused, and nothing is changed.
#[track_caller]
fn refuses(day: &Day, packet: &[u8], room: usize, number: u32, place: u32) {
    let mut after = *day;
    let mut output = vec![FILL; room];
    let Refused { refusal, place: told } = after.packet(packet, &mut output).unwrap_err();
    assert_eq!((refusal.number(), told), (number, place));
    assert_eq!(after, *day, "a refusal changed the day");
    assert!(output.iter().all(|byte| *byte == FILL), "a refusal wrote");
}

/// The same of closing.
#[track_caller]
fn refuses_to_close(day: &Day, room: usize, number: u32) {
    let mut after = *day;
    let mut output = vec![FILL; room];
    let refused = after.close(&mut output).unwrap_err();
    assert_eq!((refused.refusal.number(), refused.place), (number, 0));
    assert_eq!(after, *day, "a refusal changed the day");
    assert!(output.iter().all(|byte| *byte == FILL), "a refusal wrote");
}

#[test]
fn every_cut_into_two_and_three() {
    let bytes = small_day();
    let (file, counts) = labelled(&bytes);
    for first in 0..=bytes.len() {
        assert_eq!(fed([&bytes[..first], &bytes[first..]]), file, "cut at {first}");
        for second in first..=bytes.len() {
            let packets = [&bytes[..first], &bytes[first..second], &bytes[second..]];
            assert_eq!(fed(packets), file, "cut at {first} and {second}");
        }
    }
    let read = read(&file, file.len()).unwrap();
    assert_eq!(read.counts, counts);
}

/// In packets of every size up to more than a record, with empty ones among them, and whole.
#[test]
fn the_longest_day() {
    let bytes = longest_day();
    let (file, counts) = labelled(&bytes);
    assert_eq!(counts.labels, 1_024);
    for size in (1..=33).chain([100, 1_000, 16_383, 16_384]) {
        let packets = bytes.chunks(size).flat_map(|packet| [&[][..], packet, &[]]);
        assert!(fed(packets) == file, "packets of {size} bytes");
    }
}

/// A day without records, with and without a packet.
#[test]
fn no_records() {
    let (file, _) = labelled(&[]);
    assert_eq!(fed([]), file);
    assert_eq!(fed([&[][..], &[]]), file);
}

#[test]
fn what_is_held() {
    let bytes = small_day();
    let mut day = opened();
    assert_eq!((day.have, day.held, day.counts), (0, [0; HELD_MAX], Counts::default()));
    take(&mut day, &bytes[..31]);
    assert_eq!((day.have, &day.held[..], day.counts.labels), (15, &bytes[16..31], 1));
    // Fewer are held than before: zeros go over the others.
    take(&mut day, &bytes[31..35]);
    assert_eq!((day.have, &day.held[..3], day.counts.labels), (3, &bytes[32..35], 2));
    assert_eq!(day.held[3..], [0; 12]);
    take(&mut day, &bytes[35..48]);
    assert_eq!((day.have, day.held, day.counts.labels), (0, [0; HELD_MAX], 3));
}

/// What stands behind the bytes held does not matter; a packet, an empty one too, puts zeros there, and closing
/// leaves it.
#[test]
fn bytes_behind_those_held() {
    let bytes = small_day();
    for have in 0..=HELD_MAX {
        let mut clean = opened();
        take(&mut clean, &bytes[..have]);
        let mut other = clean;
        other.held[have..].fill(0xee);
        let mut emptied = other;
        assert_eq!(take(&mut emptied, &[]), []);
        assert_eq!(emptied, clean, "{have} bytes held");
        assert_eq!(take(&mut other, &bytes[have..]), take(&mut clean, &bytes[have..]));
        assert_eq!(other, clean);
    }
    let before = Day { held: [0xee; HELD_MAX], ..opened() };
    let mut day = before;
    day.close(&mut [0; 24]).unwrap();
    assert_eq!(day, Day { closed: true, ..before });
}

/// Puts right what an element is refused for.
type Mend = fn(&mut Elements);

/// Elements are refused as they are elsewhere, in the same order.
#[test]
fn opening() {
    let mut elements = Elements {
        eccentricity: 9_000_001,
        semi_major_axis: 6_599_999,
        inclination: u32::MAX,
        mean_motion: 0,
        node_rate: 200_001,
        epoch_revolution: 100_000,
        epoch: i64::MAX,
        half_mean_motion_derivative: i32::MIN,
        ..ELEMENTS
    };
    let mends: [(u32, Mend); 9] = [
        (1, |set| set.eccentricity = 8_000_000),
        (2, |set| set.semi_major_axis = ELEMENTS.semi_major_axis),
        (3, |set| set.eccentricity = ELEMENTS.eccentricity),
        (4, |set| set.inclination = ELEMENTS.inclination),
        (5, |set| set.mean_motion = ELEMENTS.mean_motion),
        (6, |set| set.node_rate = ELEMENTS.node_rate),
        (7, |set| set.epoch_revolution = ELEMENTS.epoch_revolution),
        (16, |set| set.half_mean_motion_derivative = 1),
        (8, |set| set.epoch = ELEMENTS.epoch),
    ];
    for (number, mend) in mends {
        assert_eq!(Day::open(&elements).map_err(Refusal::number), Err(number));
        // In a state the same elements are 24, whatever their own number is.
        let day = Day { elements, ..opened() };
        refuses(&day, &[], 100, 24, 0);
        refuses_to_close(&day, 100, 24);
        mend(&mut elements);
    }
    assert_eq!(Day::open(&elements).unwrap().elements, elements);
}

/// Every bound of 24, at it and one over it, and where a sum would wrap.
#[test]
fn states() {
    let counts = |labels, training, test, dark, dark_test| Counts {
        labels,
        training,
        test,
        dark,
        dark_test,
    };
    let max = u32::MAX;
    for good in [
        counts(0, 0, 0, 0, 0),
        counts(1_024, 0, 0, 0, 0),
        counts(1_024, 1_000, 24, 1_024, 24),
        counts(10, 4, 6, 10, 6),
        counts(10, 0, 10, 3, 3),
        counts(10, 0, 3, 10, 3),
    ] {
        let mut day = Day { counts: good, ..opened() };
        assert_eq!(take(&mut day, &[1, 2, 3]), []);
        assert_eq!(day.counts, good);
        refuses_to_close(&day, 24, 10);
        let mut trailer = [0; 24];
        let mut day = Day { counts: good, ..opened() };
        assert_eq!(day.close(&mut trailer), Ok(good));
        let distance = 24 * good.labels + 24;
        let words = [good.labels, good.training, good.test, good.dark, good.dark_test, distance];
        assert_eq!(trailer[..], words.map(u32::to_le_bytes).concat());
    }
    for bad in [
        counts(1_025, 0, 0, 0, 0),
        counts(max, 0, 0, 0, 0),
        counts(10, 5, 6, 0, 0),
        counts(10, 11, 0, 0, 0),
        counts(10, 0, 11, 0, 0),
        counts(10, max, 1, 0, 0),
        counts(10, max, 11, 0, 0),
        counts(10, 1 << 31, 1 << 31, 0, 0),
        counts(10, 4, 6, 11, 0),
        counts(10, 4, 6, max, 0),
        counts(10, 4, 3, 10, 4),
        counts(10, 4, 6, 3, 4),
        counts(10, 4, 6, 10, max),
        counts(0, 0, 0, 0, 1),
    ] {
        let day = Day { counts: bad, ..opened() };
        for packet in [&[][..], &small_day()] {
            refuses(&day, packet, 1_000, 24, 0);
        }
        refuses_to_close(&day, 24, 24);
    }
    for have in 16..=255 {
        let day = Day { have, ..opened() };
        refuses(&day, &small_day(), 1_000, 24, 0);
        refuses_to_close(&day, 24, 24);
    }
}

#[test]
fn a_closed_day() {
    let mut day = opened();
    take(&mut day, &small_day());
    day.close(&mut [0; 24]).unwrap();
    for packet in [&[][..], &[1], &small_day()] {
        refuses(&day, packet, 1_000, 24, 0);
    }
    refuses_to_close(&day, 24, 24);
}

/// 1,024 records are the most, whichever packets they came in.
#[test]
fn the_most_records() {
    let bytes = longest_day();
    let more = [&bytes[..], &bytes[..40]].concat();
    for first in [0, 1, 15, 16, 16_367, 16_368, 16_369, 16_383, 16_384] {
        let mut day = opened();
        take(&mut day, &more[..first]);
        let rest = &more[first..];
        // 1,025 and 1,026 records.
        for end in [16_400, 16_415, 16_416, 16_424] {
            refuses(&day, &rest[..end - first], 100_000, 10, 0);
        }
        // A part of the 1,025th is held, and the day cannot be closed with it.
        let mut held = day;
        take(&mut held, &rest[..16_399 - first]);
        assert_eq!((held.counts.labels, held.have), (1_024, 15));
        refuses(&held, &[0], 24, 10, 0);
        refuses(&held, &[0], 0, 10, 0);
        refuses_to_close(&held, 24, 10);
        take(&mut day, &rest[..16_384 - first]);
        assert_eq!(day.close(&mut [0; 24]).unwrap().labels, 1_024);
    }
}

#[test]
fn a_part_of_a_record() {
    let bytes = small_day();
    for length in 0..=bytes.len() {
        let mut day = opened();
        take(&mut day, &bytes[..length]);
        if length % 16 == 0 {
            assert_eq!(day.close(&mut [0; 24]).unwrap().labels as usize, length / 16);
        } else {
            refuses_to_close(&day, 24, 10);
            // It goes on: what was held is still there.
            take(&mut day, &bytes[length..]);
            assert_eq!(day.close(&mut [0; 24]).unwrap(), labelled(&bytes).1);
        }
    }
}

/// 24 bytes for each record that is completed, and none for the trailer; closing asks 24.
#[test]
fn the_room() {
    let bytes = small_day();
    for held in 0..16 {
        let mut day = opened();
        take(&mut day, &bytes[..held]);
        for end in held..=bytes.len() {
            let packet = &bytes[held..end];
            let exact = LABEL_BYTES * (end / 16);
            for room in 0..exact {
                refuses(&day, packet, room, 11, 0);
            }
            let mut after = day;
            assert_eq!(after.packet(packet, &mut vec![0; exact]), Ok(end / 16));
        }
    }
    for room in 0..24 {
        refuses_to_close(&opened(), room, 11);
    }
    assert!(opened().close(&mut [0; 24]).is_ok());
}

/// The place of a refused record counts over the whole day, also where it was split.
#[test]
fn places() {
    let (good, late) = (telemetry([0; 5]), telemetry([LAST_TIME + 1]));
    let bytes = [&good[..], &late, &late, &good].concat();
    for first in 0..=95 {
        let mut day = opened();
        take(&mut day, &bytes[..first]);
        for end in 96..=bytes.len() {
            refuses(&day, &bytes[first..end], 1_000, 8, 5);
        }
    }
    let mut day = Day { counts: Counts { labels: 1_023, ..Counts::default() }, ..opened() };
    refuses(&day, &late, 24, 8, 1_023);
    // The day goes on behind a refused record, with the same held bytes.
    take(&mut day, &good[..7]);
    let held = day;
    refuses(&day, &late[7..].repeat(3), 1_000, 10, 0);
    assert_eq!(take(&mut day, &good[7..16]), labelled(&good[..16]).0[..24]);
    assert_eq!(held.counts.labels + 1, day.counts.labels);
    let last = telemetry([LAST_TIME]);
    assert_eq!(take(&mut opened(), &last), labelled(&last).0[..24]);
}

/// All refusals due at once, and put right one by one.
#[test]
fn order_of_the_refusals() {
    let late = telemetry([LAST_TIME + 1; 3]);
    let mut day = Day { closed: true, ..opened() };
    day.counts.labels = 1_022;
    refuses(&day, &late, 0, 24, 0);
    refuses_to_close(&Day { have: 1, ..day }, 0, 24);
    day.closed = false;
    refuses(&day, &late, 0, 10, 0);
    refuses_to_close(&Day { have: 1, ..day }, 0, 10);
    day.counts.labels = 1_021;
    refuses(&day, &late, 71, 11, 0);
    refuses_to_close(&day, 23, 11);
    refuses(&day, &late, 72, 8, 1_021);
    take(&mut day, &telemetry([0; 3]));
    assert_eq!(day.close(&mut [0; 24]).unwrap().labels, 1_024);
}

/// Every byte in its own place, so that two fields swapped would show.
#[test]
fn bytes_of_the_state() {
    let mut bytes: [u8; DAY_BYTES] = std::array::from_fn(|at| 100 + at as u8);
    bytes[73] = 4;
    let day = Day::from_bytes(&bytes);
    let elements: [u8; 52] = bytes[..52].try_into().unwrap();
    assert_eq!(elements_to_bytes(&day.elements), elements);
    assert_eq!(elements_of_bytes(&elements), day.elements);
    assert_eq!(day.elements.epoch, i64::from_le_bytes([100, 101, 102, 103, 104, 105, 106, 107]));
    assert_eq!(day.elements.eccentricity, u32::from_le_bytes([108, 109, 110, 111]));
    assert_eq!(day.elements.node_rate, i32::from_le_bytes([136, 137, 138, 139]));
    let derivative = i32::from_le_bytes([148, 149, 150, 151]);
    assert_eq!(day.elements.half_mean_motion_derivative, derivative);
    assert_eq!(day.counts.labels, u32::from_le_bytes([152, 153, 154, 155]));
    assert_eq!(day.counts.dark_test, u32::from_le_bytes([168, 169, 170, 171]));
    assert_eq!((day.closed, day.have), (true, 4));
    assert_eq!(day.held[..], bytes[74..]);
    // Closed is written as 1.
    bytes[72] = 1;
    assert_eq!(day.to_bytes(), bytes);
    for (closed, byte) in [(false, 0), (true, 1)] {
        let day = Day { closed, ..opened() };
        assert_eq!(day.to_bytes()[72], byte);
        assert_eq!(Day::from_bytes(&day.to_bytes()), day);
    }
}
