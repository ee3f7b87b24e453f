//! A small day in packets by the library and by the reference: cut in every way into two and into three, with every
//! room, from states with every byte of closed and of held, with counts about every bound, and about the most labels.

use reference::label::LABEL_BYTES;
use reference::orbit::Elements;
use reference::packets::Day;
use reference::trailer::Counts;

/// What an output holds before a call.
const FILL: u8 = 0xcc;

/// A low satellite.
const ELEMENTS: Elements = Elements {
    eccentricity: 1_000,
    semi_major_axis: 7_000_000,
    inclination: 1 << 30,
    node: 0,
    argument_of_perigee: 0,
    mean_anomaly: 0,
    mean_motion: 1_480_000_000,
    node_rate: 0,
    perigee_rate: 0,
    epoch_revolution: 60,
    epoch: 0,
    half_mean_motion_derivative: 0,
};

fn record(time: i64) -> Vec<u8> {
    [&time.to_le_bytes()[..], &14.0_f32.to_le_bytes(), &0.5_f32.to_le_bytes()].concat()
}

/// Records with labels of every side and shade.
fn small_day() -> Vec<u8> {
    [0, 31_100, 29_000, 37_100].into_iter().flat_map(record).collect()
}

fn opened() -> Day {
    Day::open(&ELEMENTS).expect("good elements")
}

type Answer<T> = Result<T, (u32, u32)>;

fn library_refused(refused: yurdelmiz::Refused) -> (u32, u32) {
    (refused.refusal.number(), refused.place)
}

fn reference_refused(refused: reference::Refused) -> (u32, u32) {
    (refused.refusal.number(), refused.place)
}

/// Takes a packet by both from the state of these bytes, and compares all that they give and leave. A refusal
/// leaves the bytes as they are.
#[track_caller]
fn packet(state: &mut [u8; 89], packet: &[u8], room: usize) -> Answer<Vec<u8>> {
    let before = *state;
    let [mut library_output, mut reference_output] = [0; 2].map(|_| vec![FILL; room]);
    let mut library = yurdelmiz::Day::from_bytes(state);
    let mut reference = Day::from_bytes(state);
    let taken = library.packet(packet, &mut library_output).map_err(library_refused);
    let told = reference.packet(packet, &mut reference_output).map_err(reference_refused);
    assert_eq!(taken, told);
    assert!(library_output == reference_output, "the outputs differ");
    *state = library.to_bytes();
    let left = if told.is_ok() { reference.to_bytes() } else { before };
    assert_eq!(*state, left, "the states differ");
    if told.is_err() {
        assert!(library_output.iter().all(|byte| *byte == FILL), "a refusal wrote");
    }
    taken.map(|labels| library_output[..labels * LABEL_BYTES].to_vec())
}

/// Closes by both.
#[track_caller]
fn close(state: &mut [u8; 89], room: usize) -> Answer<Vec<u8>> {
    let before = *state;
    let [mut library_output, mut reference_output] = [0; 2].map(|_| vec![FILL; room]);
    let mut library = yurdelmiz::Day::from_bytes(state);
    let mut reference = Day::from_bytes(state);
    let closed = library.close(&mut library_output).map_err(library_refused);
    let told = reference.close(&mut reference_output).map_err(reference_refused);
    let counts = |counts: yurdelmiz::Counts| {
        let yurdelmiz::Counts { labels, training, test, dark, dark_test } = counts;
        Counts { labels, training, test, dark, dark_test }
    };
    assert_eq!(closed.map(counts), told);
    assert!(library_output == reference_output, "the outputs differ");
    *state = library.to_bytes();
    let left = if told.is_ok() { reference.to_bytes() } else { before };
    assert_eq!(*state, left, "the states differ");
    told.map(|_| library_output[..24].to_vec())
}

/// The file of a day in these packets.
#[track_caller]
fn fed(packets: &[&[u8]]) -> Vec<u8> {
    let mut state = opened().to_bytes();
    let mut file = Vec::new();
    for bytes in packets {
        file.extend(packet(&mut state, bytes, 4 * LABEL_BYTES).expect("a good packet"));
    }
    file.extend(close(&mut state, 24).expect("a day that ends with a record"));
    file
}

#[test]
fn every_cut_into_two_and_three() {
    let bytes = small_day();
    let elements =
        yurdelmiz::Elements::from_bytes(&reference::day_bytes::elements_to_bytes(&ELEMENTS));
    let file = yurdelmiz::label_to_vec(&elements, &bytes).expect("a good day");
    let (counts, _) = yurdelmiz::read(&file, file.len()).expect("a sound file");
    let yurdelmiz::Counts { labels, training, test, dark, dark_test } = counts;
    assert_eq!([labels, training, test, dark, dark_test], [4, 1, 2, 1, 1]);
    let mut ways = 0;
    for first in 0..=bytes.len() {
        assert_eq!(fed(&[&bytes[..first], &bytes[first..]]), file, "cut at {first}");
        for second in first..=bytes.len() {
            let packets = [&bytes[..first], &bytes[first..second], &bytes[second..]];
            assert_eq!(fed(&packets), file, "cut at {first} and {second}");
            ways += 1;
        }
    }
    assert_eq!(ways, 65 * 66 / 2);
}

/// Every room for every packet that goes on with every number of bytes held.
#[test]
fn every_room() {
    let bytes = small_day();
    for held in 0..16 {
        let mut state = opened().to_bytes();
        packet(&mut state, &bytes[..held], 0).expect("no record");
        for end in held..=bytes.len() {
            let exact = end / 16 * LABEL_BYTES;
            for room in 0..=exact + 25 {
                let taken = packet(&mut state.clone(), &bytes[held..end], room);
                assert_eq!(taken.is_ok(), room >= exact, "{held} held, to {end}, {room} bytes");
            }
        }
        for room in 0..50 {
            let closed = close(&mut state.clone(), room);
            assert_eq!(closed.is_ok(), held == 0 && room >= 24, "{held} held, {room} bytes");
        }
    }
}

/// Every byte of closed, and every number of bytes held, with others than zeros behind them.
#[test]
fn every_closed_and_held() {
    let bytes = small_day();
    for at in [72, 73] {
        for byte in 0..=255 {
            let mut state = opened().to_bytes();
            state[74..].copy_from_slice(&bytes[..15]);
            state[at] = byte;
            let good = byte == 0 || (at == 73 && byte <= 15);
            let rest = &bytes[usize::from(state[73]).min(15)..];
            for piece in [&[][..], &rest[..1], rest] {
                let mut state = state;
                let taken = packet(&mut state, piece, 1_000);
                assert_eq!(taken.is_ok(), good, "byte {at} is {byte}");
            }
            let closed = close(&mut state, 24);
            assert_eq!(closed.is_ok(), byte == 0, "byte {at} is {byte}");
        }
    }
}

/// Counts of few labels, all of them, and each at the end of the numbers.
#[test]
fn counts_about_every_bound() {
    let numbers = [0, 1, 2, 3, 4, 1 << 31, u32::MAX - 1, u32::MAX];
    let mut good = 0;
    for labels in 0..=3 {
        for [training, test] in pairs(&numbers) {
            for [dark, dark_test] in pairs(&numbers) {
                let counts = Counts { labels, training, test, dark, dark_test };
                let mut state = Day { counts, ..opened() }.to_bytes();
                let taken = packet(&mut state.clone(), &[1, 2, 3], 0);
                let closed = close(&mut state, 24);
                assert_eq!(taken.is_ok(), closed.is_ok());
                let sum = u64::from(training) + u64::from(test);
                let bounded = sum <= labels.into()
                    && dark <= labels
                    && dark_test <= test
                    && dark_test <= dark;
                assert_eq!(taken.is_ok(), bounded, "{counts:?}");
                good += u32::from(bounded);
            }
        }
    }
    assert_eq!(good, 98);
}

fn pairs(numbers: &[u32]) -> Vec<[u32; 2]> {
    numbers.iter().flat_map(|one| numbers.iter().map(|other| [*one, *other])).collect()
}

/// States with about as many labels as a day may have, and packets over that and not; a record that is refused at
/// each place of the packet.
#[test]
fn about_the_most_labels() {
    let late = record(31_622_401);
    for labels in 1_018..=1_027 {
        for held in 0..16 {
            let mut day = Day { have: held as u8, ..opened() };
            day.counts.labels = labels;
            day.held[..held].copy_from_slice(&record(0)[..held]);
            let state = day.to_bytes();
            for records in 0..=6 {
                let bytes = record(0).repeat(records + 1);
                let piece = &bytes[held..16 * records + held];
                let taken = packet(&mut state.clone(), piece, 200);
                let good = labels <= 1_024 && labels as usize + records <= 1_024;
                assert_eq!(taken.is_ok(), good, "{labels} labels, {held} held, {records} records");
                for bad in 1..records {
                    let mut bytes = bytes.clone();
                    bytes[16 * bad..16 * bad + 16].copy_from_slice(&late);
                    let piece = &bytes[held..16 * records + held];
                    let told = packet(&mut state.clone(), piece, 200).unwrap_err();
                    if good {
                        assert_eq!(told, (8, labels + bad as u32));
                    }
                }
            }
        }
    }
}
