//! Two-line elements: what is read, each refusal with its place, the fields of the places, and the bytes of the answer.

mod common;

use common::OSCAR_10;
use yurdelmiz::{ffi, parse_two_line, position, Elements, Refusal, Refused, TwoLineField};

/// The space station on 2008 September 20.
const STATION: [&str; 2] = [
    "1 25544U 98067A   08264.51782528 -.00002182  00000-0 -11606-4 0  2927",
    "2 25544  51.6416 247.4627 0006703 130.5360 325.0288 15.72125391563537",
];

/// The axis and the drift rates of node and perigee, which come beside the lines.
type Beside = (u32, i32, i32);

const BESIDE: Beside = (6_730_960, -51_216, 38_198);

/// Worked by hand: 0.51782528 of a day is 44,740.104192 s; 2008 September 20 is day 6,838 from 1989 December 31; and
/// 15.72125391 revolutions a day are 81,426.8 units in 0.104192 s.
const STATION_ELEMENTS: Elements = Elements {
    eccentricity: 6_703,
    semi_major_axis: 6_730_960,
    inclination: 616_108_286,
    node: 2_952_345_009,
    argument_of_perigee: 1_557_355_141,
    mean_anomaly: 3_877_744_628 - 81_426,
    mean_motion: 1_572_125_391,
    node_rate: -51_216,
    perigee_rate: 38_198,
    epoch_revolution: 56_353,
    epoch: 6_838 * 86_400 + 44_740,
    half_mean_motion_derivative: -2_182,
};

/// Puts the checksum right.
fn mend(line: &mut [u8]) {
    let (checksum, counted) = line.split_last_mut().unwrap();
    let worth = |byte: &u8| match byte {
        b'-' => 1,
        b'0'..=b'9' => u32::from(byte - b'0'),
        _ => 0,
    };
    *checksum = b'0' + (counted.iter().map(worth).sum::<u32>() % 10) as u8;
}

/// The station's lines with a text from a column of one of them on, and right checksums.
fn changed(line: usize, column: usize, text: &str) -> [Vec<u8>; 2] {
    let mut lines = STATION.map(|line| line.as_bytes().to_vec());
    lines[line - 1][column - 1..][..text.len()].copy_from_slice(text.as_bytes());
    lines.iter_mut().for_each(|line| mend(line));
    lines
}

/// The elements, or a refusal's number and place.
fn read(
    lines: [&[u8]; 2],
    (axis, node_rate, perigee_rate): Beside,
) -> Result<Elements, (u32, u32)> {
    parse_two_line(lines, axis, node_rate, perigee_rate)
        .map_err(|Refused { refusal, place }| (refusal.number(), place))
}

/// What the station's lines give with a text changed.
fn with(line: usize, column: usize, text: &str) -> Result<Elements, (u32, u32)> {
    read(changed(line, column, text).each_ref().map(|line| &line[..]), BESIDE)
}

#[test]
fn a_published_set() {
    assert_eq!(read(STATION.map(str::as_bytes), BESIDE), Ok(STATION_ELEMENTS));
    // What is read is accepted by the calls that take elements.
    let epoch = STATION_ELEMENTS.epoch;
    assert_eq!(position(&STATION_ELEMENTS, epoch).map(|state| state.revolution), Ok(56_353));
}

/// The epoch of source document 001's example is 0.000288 s before that of the lines, in which the mean anomaly goes
/// 29.5 units.
#[test]
fn oscar_10_in_two_lines() {
    let lines = [
        "1 14129U 83058B   85224.07291667  .00000000  00000-0  00000-0 0    14",
        "2 14129  25.6000 121.2000 6100000  40.1000 129.3000  2.05890000 16275",
    ];
    let elements = Elements { mean_anomaly: OSCAR_10.mean_anomaly - 29, ..OSCAR_10 };
    assert_eq!(read(lines.map(str::as_bytes), (26_100_000, -1_724, 2_834)), Ok(elements));
}

#[test]
fn fields_of_the_places() {
    let places = [
        (3, "satellite number", 1, 3, 7),
        (19, "year of the epoch", 1, 19, 20),
        (21, "day of the epoch", 1, 21, 32),
        (34, "half the derivative of the mean motion", 1, 34, 43),
        (72, "satellite number", 2, 3, 7),
        (78, "inclination", 2, 9, 16),
        (87, "right ascension of the ascending node", 2, 18, 25),
        (96, "eccentricity", 2, 27, 33),
        (104, "argument of perigee", 2, 35, 42),
        (113, "mean anomaly", 2, 44, 51),
        (122, "mean motion", 2, 53, 63),
        (133, "revolution at the epoch", 2, 64, 68),
    ];
    assert_eq!(TwoLineField::ALL.len(), places.len());
    for (place, name, line, first, last) in places {
        let field = TwoLineField { name, line, first, last };
        assert_eq!(TwoLineField::at(place), Some(field));
        assert_eq!(field.place(), place);
        // Where the library puts a letter in any of its columns.
        for column in first..=last {
            assert_eq!(with(line, column, "x"), Err((19, place)), "column {column}");
        }
    }
    let known = places.map(|(place, ..)| place);
    for place in (0..=140).chain([u32::MAX]).filter(|place| !known.contains(place)) {
        assert_eq!(TwoLineField::at(place), None, "{place}");
    }
}

/// The columns that no field has may hold anything, where the checksum fits.
#[test]
fn columns_between_the_fields() {
    for line in [1, 2] {
        let fields = TwoLineField::ALL.into_iter().filter(|field| field.line == line);
        let columns: Vec<usize> = fields.flat_map(|field| field.first..=field.last).collect();
        let between = (2..TwoLineField::COLUMNS).filter(|column| !columns.contains(column));
        let mut number = 0;
        for column in between {
            number += 1;
            for text in ["x", "-", "9", "\0"] {
                assert_eq!(with(line, column, text), Ok(STATION_ELEMENTS), "column {column}");
            }
        }
        assert_eq!(number, [0, 38, 7][line]);
    }
}

#[test]
fn lines_that_are_none() {
    let [first, second] = STATION.map(str::as_bytes);
    let longer = [second, b" "].concat();
    let ended = [first, b"\n"].concat();
    for lines in [
        [&first[..68], second],
        [first, &second[1..]],
        [first, &longer],
        [&ended, second],
        [first, &[]],
        [&[], second],
        [second, first],
        [first, first],
        [second, second],
    ] {
        assert_eq!(read(lines, BESIDE), Err((17, 0)));
    }
}

/// A checksum off by one, and a minus that was retyped as a blank.
#[test]
fn checksums() {
    for line in [0, 1] {
        let mut lines = STATION.map(|line| line.as_bytes().to_vec());
        *lines[line].last_mut().unwrap() = b'8';
        assert_eq!(read(lines.each_ref().map(|line| &line[..]), BESIDE), Err((18, 0)));
    }
    let [first, second] = STATION;
    let first = first.replace(" -.0000", "  .0000");
    assert_eq!(read([first.as_bytes(), second.as_bytes()], BESIDE), Err((18, 0)));
}

#[test]
fn edges_of_the_fields() {
    for (line, column, text, place) in [
        (1, 3, "2554 ", 3),
        (1, 19, " 8", 19),
        (1, 21, "000.99999999", 21),
        (1, 21, "367.00000000", 21),
        (1, 21, " 64.51782528", 21),
        (1, 34, " 0.0002182", 34),
        (2, 3, "2 544", 72),
        (2, 9, "360.0000", 78),
        (2, 18, "24 .4627", 87),
        (2, 27, "    703", 96),
        (2, 35, "1300.536", 104),
        (2, 44, "325.028 ", 113),
        (2, 53, "15,72125391", 122),
        (2, 64, "5635 ", 133),
    ] {
        assert_eq!(with(line, column, text), Err((19, place)), "{text:?}");
    }
    let seconds = |days: i64| days * 86_400;
    for (text, epoch) in [
        ("57001.00000000", seconds(-12_052)),
        ("99365.99999999", seconds(3_653) - 1),
        ("00366.99999999", seconds(4_019) - 1),
        ("56001.50000000", seconds(24_107) + 43_200),
    ] {
        assert_eq!(with(1, 19, text).map(|elements| elements.epoch), Ok(epoch), "{text}");
    }
    // 1999 has no day 366.
    assert_eq!(with(1, 19, "99366.00000000"), Err((19, 21)));
}

/// Blanks for zeros, all of the five too.
#[test]
fn leading_blanks() {
    let value = |line, column, text, of: fn(&Elements) -> u32| {
        with(line, column, text).map(|elements| of(&elements))
    };
    for (text, degree) in [("  1.0000", 1), (" 01.0000", 1), ("   .0000", 0), ("000.0000", 0)] {
        // A degree is 11,930,464.7 units.
        assert_eq!(value(2, 18, text, |elements| elements.node), Ok(11_930_464 * degree));
    }
    for (text, revolution) in [("     ", 0), ("    7", 7), ("00007", 7)] {
        assert_eq!(value(2, 64, text, |elements| elements.epoch_revolution), Ok(revolution));
    }
    for text in ["  .50000000", " 0.50000000", "00.50000000"] {
        assert_eq!(value(2, 53, text, |elements| elements.mean_motion), Ok(50_000_000));
    }
    for (first, second) in [("    5", "00005"), ("     ", "    0")] {
        let [mut line_1, mut line_2] = STATION.map(|line| line.as_bytes().to_vec());
        line_1[2..7].copy_from_slice(first.as_bytes());
        line_2[2..7].copy_from_slice(second.as_bytes());
        mend(&mut line_1);
        mend(&mut line_2);
        assert_eq!(read([&line_1, &line_2], BESIDE), Ok(STATION_ELEMENTS));
    }
}

/// 20, then those of elements. 7 and 8 cannot be met: a revolution has five digits, and the years are in range.
#[test]
fn refusals_without_a_place() {
    assert_eq!(with(2, 3, "25545"), Err((20, 0)));
    assert_eq!(with(2, 27, "9000001"), Err((1, 0)));
    assert_eq!(with(2, 27, "0400000"), Err((3, 0)));
    assert_eq!(with(2, 9, "180.0001"), Err((4, 0)));
    for motion in ["17.00000001", " 0.19999999", "42.94967296", "58.67092687", "99.99999999"] {
        assert_eq!(with(2, 53, motion), Err((5, 0)));
    }
    assert_eq!(with(1, 34, "-.01000001"), Err((16, 0)));
    let beside = |beside| read(STATION.map(str::as_bytes), beside).map(|_| ());
    for axis in [0, 6_599_999, 100_000_001, u32::MAX] {
        assert_eq!(beside((axis, 0, 0)), Err((2, 0)));
    }
    for rate in [-200_001, 200_001, i32::MIN, i32::MAX] {
        assert_eq!(beside((6_730_960, rate, 0)), Err((6, 0)));
        assert_eq!(beside((6_730_960, 0, rate)), Err((6, 0)));
    }
    assert_eq!(beside((6_730_960, -200_000, 200_000)), Ok(()));
}

/// The set with the mean anomaly and argument of perigee, mean motion and revolution, half a second past a full one.
fn half_a_second(
    [anomaly, perigee]: [&str; 2],
    motion: &str,
    revolution: &str,
) -> Result<Elements, (u32, u32)> {
    let [first, mut second] = changed(1, 24, ".00015625");
    second[34..51].copy_from_slice(format!("{perigee} {anomaly}").as_bytes());
    second[52..68].copy_from_slice(format!("{motion}{revolution}").as_bytes());
    mend(&mut second);
    read([&first, &second], BESIDE)
}

/// 10.546875 revolutions a day are 2^18 units in half a second, and 0.0219 and 0.022 degrees 261,277 and 262,470.
#[test]
fn the_node_within_the_cut_part() {
    let motion = "10.54687500";
    for (angles, motion, revolution, expected) in [
        (["   .0219", "000.0000"], motion, "00060", 59),
        (["   .0220", "000.0000"], motion, "00060", 60),
        (["000.0000", "   .0219"], motion, "00060", 59),
        (["   .0219", "000.0000"], motion, "    1", 0),
        (["   .0219", "000.0000"], motion, "     ", 0),
        // The mean anomaly is below the amount, and the sum is not.
        (["   .0001", " 90.0000"], motion, "00060", 60),
        // The sum is over a turn.
        (["359.9999", "   .0220"], motion, "00060", 59),
        (["359.9999", "   .0221"], motion, "00060", 60),
        // The amount is the sum, and then one more.
        (["   .0220", "000.0000"], "10.55999101", "00060", 60),
        (["   .0220", "000.0000"], "10.56003124", "00060", 59),
        // Each angle is cut by itself: 261,276 units, and then 261,277, which is the amount.
        (["359.9999", "   .0220"], "10.51199288", "00060", 59),
        (["   .0219", "000.0000"], "10.51199288", "00060", 60),
    ] {
        let elements = half_a_second(angles, motion, revolution).unwrap();
        assert_eq!(elements.epoch_revolution, expected, "{angles:?} {motion} {revolution}");
    }
}

/// The number at the full second that the epoch was moved back to, and at the next, which is behind the node.
#[test]
fn the_node_behind_the_epoch() {
    let elements = half_a_second(["   .0219", "000.0000"], "10.54687500", "00060").unwrap();
    assert_eq!(elements.mean_anomaly, 261_277_u32.wrapping_sub(1 << 18));
    let at = |time| position(&elements, time).unwrap().revolution;
    assert_eq!([at(elements.epoch), at(elements.epoch + 1)], [59, 60]);
}

/// A blank or a plus is the sign of a number above 0, and neither counts in the checksum.
#[test]
fn signs() {
    let derivative =
        |text: &str| with(1, 34, text).map(|elements| elements.half_mean_motion_derivative);
    assert_eq!(derivative(" .00002182"), Ok(2_182));
    assert_eq!(derivative("+.00002182"), Ok(2_182));
    assert_eq!(derivative("-.00002182"), Ok(-2_182));
    for sign in ["0", "1", ".", "*"] {
        assert_eq!(derivative(&format!("{sign}.00002182")), Err((19, 34)));
    }
}

/// All of these at once, put right one by one.
#[test]
fn order_of_the_refusals() {
    let told = |lines: &[Vec<u8>; 2], rate| {
        read(lines.each_ref().map(|line| &line[..]), (6_730_960, rate, 0)).map(|_| ())
    };
    let mut lines = STATION.map(|line| line.as_bytes().to_vec());
    lines[0][33..43].copy_from_slice(b" .02000000");
    lines[1][2..7].copy_from_slice(b"25545");
    lines[1][63..68].copy_from_slice(b"5635x");
    let [first, second] = lines.clone();
    assert_eq!(told(&[first, second[..68].to_vec()], 200_001), Err((17, 0)));
    assert_eq!(told(&lines, 200_001), Err((18, 0)));
    mend(&mut lines[0]);
    assert_eq!(told(&lines, 200_001), Err((18, 0)));
    mend(&mut lines[1]);
    assert_eq!(told(&lines, 200_001), Err((19, 133)));
    lines[1][63..68].copy_from_slice(b"56353");
    mend(&mut lines[1]);
    assert_eq!(told(&lines, 200_001), Err((20, 0)));
    lines[1][2..7].copy_from_slice(b"25544");
    mend(&mut lines[1]);
    assert_eq!(told(&lines, 200_001), Err((6, 0)));
    assert_eq!(told(&lines, 200_000), Err((16, 0)));
    lines[0][33..43].copy_from_slice(b" .01000000");
    mend(&mut lines[0]);
    assert_eq!(told(&lines, 200_000), Ok(()));
}

#[test]
fn a_refusal_is_told_with_its_place() {
    let lines = changed(2, 9, "360.0000");
    let [first, second] = lines.each_ref().map(|line| &line[..]);
    let refused = parse_two_line([first, second], 6_730_960, 0, 0).unwrap_err();
    assert_eq!(refused, Refused { refusal: Refusal::Field, place: 78 });
    assert_eq!(
        refused.to_string(),
        "refused 19 at 78: a field of the two lines does not fit its layout, or is \
         360 degrees or more, or a day outside its year"
    );
    let field = TwoLineField::at(refused.place).unwrap();
    assert_eq!((field.name, field.line), ("inclination", 2));
}

/// The call itself: its result, and the answer of so many bytes, which was filled with 7.
fn call(lines: [&[u8]; 2], answer_len: usize) -> (u64, [u8; 60]) {
    let ([first, second], (axis, node_rate, perigee_rate)) = (lines, BESIDE);
    let mut answer = [7; 60];
    // SAFETY: the slices are the two lines and the start of `answer`.
    let result = unsafe {
        ffi::yurdelmiz_two_line(
            first.as_ptr(),
            first.len(),
            second.as_ptr(),
            second.len(),
            axis,
            node_rate,
            perigee_rate,
            answer.as_mut_ptr(),
            answer_len,
        )
    };
    (result, answer)
}

/// All bytes of the elements are written, or none.
#[test]
fn bytes_of_the_answer() {
    let sound = STATION.map(str::as_bytes);
    let written = [&STATION_ELEMENTS.to_bytes()[..], &[7; 8]].concat();
    assert_eq!(call(sound, ffi::ELEMENTS_BYTES), (0, written.try_into().unwrap()));
    let lines = changed(2, 64, "5635x");
    let bad_field = lines.each_ref().map(|line| &line[..]);
    assert_eq!(call(bad_field, ffi::ELEMENTS_BYTES), (133 << 32 | 19, [7; 60]));
    let [first, second] = sound;
    assert_eq!(call([second, first], ffi::ELEMENTS_BYTES), (17, [7; 60]));
    // A wrong length of the answer is told before all else.
    for answer_len in [0, 1, 8, 51, 53, 60] {
        for lines in [sound, bad_field, [second, first], [&[], &[]]] {
            assert_eq!(call(lines, answer_len), (u64::from(ffi::BAD_BUFFER), [7; 60]));
        }
    }
}
