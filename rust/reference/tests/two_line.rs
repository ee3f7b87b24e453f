//! Two-line elements beyond what the vectors hold: published sets, every byte at every column, blanks, the calendar,
//! the part of a second that is cut, and the order of the refusals.

use reference::orbit::Elements;
use reference::sine::angle;
use reference::two_line::{two_line, COLUMNS};
use reference::Refused;

/// The space station on 2008 September 20.
const STATION: [&str; 2] = [
    "1 25544U 98067A   08264.51782528 -.00002182  00000-0 -11606-4 0  2927",
    "2 25544  51.6416 247.4627 0006703 130.5360 325.0288 15.72125391563537",
];

/// The station's axis and drift rates of node and perigee, which come beside the lines.
const BESIDE: (u32, i32, i32) = (6_730_960, -51_216, 38_198);

type Lines = [Vec<u8>; 2];

/// The elements, or a refusal's number and place.
type Outcome = Result<Elements, (u32, u32)>;

fn read_beside(lines: &Lines, (axis, node_rate, perigee_rate): (u32, i32, i32)) -> Outcome {
    two_line(&lines[0], &lines[1], axis, node_rate, perigee_rate)
        .map_err(|Refused { refusal, place }| (refusal.number(), place))
}

fn read(lines: &Lines) -> Outcome {
    read_beside(lines, BESIDE)
}

/// Puts the checksums right.
fn mend(lines: &mut Lines) {
    for line in lines {
        let (checksum, counted) = line.split_last_mut().unwrap();
        let digits = counted.iter().filter(|byte| byte.is_ascii_digit());
        let minuses = counted.iter().filter(|byte| **byte == b'-').count() as u32;
        let sum = minuses + digits.map(|digit| u32::from(digit - b'0')).sum::<u32>();
        *checksum = b'0' + (sum % 10) as u8;
    }
}

/// A text from some column of a line on.
type Change<'a> = (usize, usize, &'a str);

/// A set with texts changed, and its checksums right.
fn changed(set: [&str; 2], changes: &[Change]) -> Lines {
    let mut lines = set.map(|line| line.as_bytes().to_vec());
    for (line, column, text) in changes {
        lines[line - 1][column - 1..][..text.len()].copy_from_slice(text.as_bytes());
    }
    mend(&mut lines);
    lines
}

/// What the station's set gives with texts changed.
fn station(changes: &[Change]) -> Outcome {
    read(&changed(STATION, changes))
}

/// 0.51782528 of a day is 44,740.104192 s, and 2008 September 20 is day 6,838 from 1989 December 31; in 0.104192 s
/// the mean anomaly goes 81,426.8 units.
#[test]
fn a_published_set() {
    let elements = Elements {
        eccentricity: 6_703,
        semi_major_axis: 6_730_960,
        inclination: 616_108_286,
        node: 2_952_345_009,
        argument_of_perigee: 1_557_355_141,
        mean_anomaly: 3_877_744_628 - 81_426,
        mean_motion: 1_572_125_391,
        node_rate: -51_216,
        perigee_rate: 38_198,
        epoch_revolution: 56_353,
        epoch: 6_838 * 86_400 + 44_740,
        half_mean_motion_derivative: -2_182,
    };
    assert_eq!(read(&STATION.map(|line| line.as_bytes().to_vec())), Ok(elements));
    // The checksums are published too.
    assert_eq!(changed(STATION, &[]), STATION.map(|line| line.as_bytes().to_vec()));
}

/// The sets of Spacetrack Report 3, without designators: a low satellite, and one whose mean motion changes too fast.
#[test]
fn sets_of_a_report() {
    let low = [
        "1 88888U          80275.98708465  .00073094  13844-3  66816-4 0    87",
        "2 88888  72.8435 115.9689 0086731  52.6988 110.5714 16.05824518  1058",
    ];
    let elements = Elements {
        eccentricity: 86_731,
        semi_major_axis: 6_636_460,
        inclination: 869_056_806,
        node: 1_383_562_869,
        argument_of_perigee: 628_721_173,
        mean_anomaly: 1_319_168_185 - 90_810,
        mean_motion: 1_605_824_518,
        node_rate: 0,
        perigee_rate: 0,
        epoch_revolution: 105,
        // 1980 October 1.
        epoch: -3_378 * 86_400 + 85_284,
        half_mean_motion_derivative: 73_094,
    };
    let lines = low.map(|line| line.as_bytes().to_vec());
    assert_eq!(read_beside(&lines, (6_636_460, 0, 0)), Ok(elements));

    let high = [
        "1 11801U          80230.29629788  .01431103  00000-0  14311-1 0    13",
        "2 11801  46.7916 230.4354 7318036  47.4722  10.4117  2.28537848    13",
    ];
    let lines = high.map(|line| line.as_bytes().to_vec());
    assert_eq!(read_beside(&lines, (24_346_120, 0, 0)), Err((16, 0)));
    let slower = changed(high, &[(1, 34, " .01000000")]);
    assert!(read_beside(&slower, (24_346_120, 0, 0)).is_ok());
}

/// What may stand in a column: `d` a digit; `n` a digit, or a blank where its field has nothing but blanks ahead of it;
/// `s` a sign; `l` the line's number; `c` the checksum; a blank anything.
const LAYOUT: [&[u8; COLUMNS]; 2] = [
    b"l nnnnn           ddddd.dddddddd s.dddddddd                         c",
    b"l nnnnn nnn.dddd nnn.dddd ddddddd nnn.dddd nnn.dddd nn.ddddddddnnnnnc",
];

/// The first columns of the fields of a line, and those behind their last.
const FIELDS: [&[(usize, usize)]; 2] = [
    &[(3, 8), (19, 21), (21, 33), (34, 44)],
    &[(3, 8), (9, 17), (18, 26), (27, 34), (35, 43), (44, 52), (53, 64), (64, 69)],
];

/// Digits may still take an angle or a day out of its range, and a satellite number from that of the other line.
#[test]
fn every_byte_at_every_column() {
    let with_blanks = STATION;
    let with_zeros = [
        "1 00005U 58002B   00179.78495062 +.00000023  00000-0  28098-4 0  4753",
        "2 00005 034.2682 348.7242 0000667 001.7664 019.3264 10.82419157003667",
    ];
    let all_blank = [
        "1      U 58002B   00179.78495062  .00000023  00000-0  28098-4 0  4753",
        "2          .2682    .7242 0000667    .7664    .3264 10.82419157     7",
    ];
    let mut refused = 0;
    for set in [with_blanks, with_zeros, all_blank] {
        let sound = changed(set, &[]);
        let elements = read(&sound).unwrap();
        for (line, columns) in FIELDS.into_iter().enumerate() {
            for column in 1..COLUMNS {
                let field = columns.iter().find(|(first, end)| (*first..*end).contains(&column));
                let ahead = &sound[line][field.map_or(0, |(first, _)| first - 1)..column - 1];
                for byte in 0..=255_u8 {
                    let allowed = match LAYOUT[line][column - 1] {
                        b'd' => byte.is_ascii_digit(),
                        b'n' if byte == b' ' => ahead.iter().all(|byte| *byte == b' '),
                        b'n' => byte.is_ascii_digit(),
                        b's' => b" +-".contains(&byte),
                        b'.' => byte == b'.',
                        b'l' => byte == [b'1', b'2'][line],
                        _ => true,
                    };
                    let mut lines = sound.clone();
                    lines[line][column - 1] = byte;
                    mend(&mut lines);
                    let outcome = read(&lines);
                    let place = field.map_or(0, |(first, _)| (first + COLUMNS * line) as u32);
                    if LAYOUT[line][column - 1] == b' ' {
                        assert_eq!(outcome, Ok(elements), "{byte} at {column} of {lines:?}");
                    } else if column == 1 && !allowed {
                        assert_eq!(outcome, Err((17, 0)));
                    } else if allowed {
                        let in_field = [17, 18].iter().all(|number| outcome != Err((*number, 0)));
                        assert!(in_field && (byte.is_ascii_digit() || outcome != Err((19, place))));
                    } else {
                        refused += 1;
                        assert_eq!(outcome, Err((19, place)), "{byte} at {column}");
                    }
                }
            }
        }
    }
    assert!(refused > 60_000);
}

/// A blank is no sign of a number that ends, and none stands for a zero behind the point.
#[test]
fn blanks_within_a_number() {
    for (line, column, text, place) in [
        (1, 3, "2 544", 3),
        (1, 3, "2554 ", 3),
        (1, 19, " 8", 19),
        (1, 21, " 64.51782528", 21),
        (1, 21, "264.5178252 ", 21),
        (1, 34, " 0.0002182", 34),
        (1, 34, "-. 0002182", 34),
        (1, 34, "  .0002182", 34),
        (2, 3, " 5 44", 72),
        (2, 9, "5 .64160", 78),
        (2, 9, " 51.641 ", 78),
        (2, 18, "2 7.4627", 87),
        (2, 27, "      3", 96),
        (2, 35, "13 .5360", 104),
        (2, 44, "   . 288", 113),
        (2, 53, "1 .72125391", 122),
        (2, 53, "15.7212539 ", 122),
        (2, 64, "5635 ", 133),
        (2, 64, "5    ", 133),
    ] {
        assert_eq!(station(&[(line, column, text)]), Err((19, place)), "{text:?} at {column}");
    }
}

/// Satellite numbers are the same as numbers, whether blanks or zeros stand ahead.
#[test]
fn satellite_numbers() {
    let of = |first, second| station(&[(1, 3, first), (2, 3, second)]).map(|_| ());
    for (first, second) in [("00005", "    5"), ("  005", "   05"), ("     ", "00000")] {
        assert_eq!(of(first, second), Ok(()));
        assert_eq!(of(second, first), Ok(()));
    }
    for (first, second) in [("00005", "00006"), ("    5", "50000"), ("     ", "    1")] {
        assert_eq!(of(first, second), Err((20, 0)));
        assert_eq!(of(second, first), Err((20, 0)));
    }
}

#[test]
fn values_of_the_fields() {
    let with = |line, column, text| station(&[(line, column, text)]).unwrap();
    for (text, value) in [
        (" .00000000", 0),
        ("-.00000000", 0),
        ("+.00000001", 1),
        ("-.00000001", -1),
        (" .01000000", 1_000_000),
        ("-.01000000", -1_000_000),
    ] {
        assert_eq!(with(1, 34, text).half_mean_motion_derivative, value);
    }
    for text in [" .01000001", "-.99999999"] {
        assert_eq!(station(&[(1, 34, text)]), Err((16, 0)));
    }
    for (text, ten_thousandths) in [
        ("   .0000", 0),
        ("000.0001", 1),
        ("  9.0000", 90_000),
        ("180.0000", 1_800_000),
        ("359.9999", 3_599_999),
    ] {
        assert_eq!(with(2, 18, text).node, angle(ten_thousandths));
        assert_eq!(with(2, 35, text).argument_of_perigee, angle(ten_thousandths));
        let back = with(2, 44, text).mean_anomaly.wrapping_sub(angle(ten_thousandths));
        assert_eq!(back, 81_426_u32.wrapping_neg());
    }
    for (column, place) in [(9, 78), (18, 87), (35, 104), (44, 113)] {
        for text in ["360.0000", "999.9999"] {
            assert_eq!(station(&[(2, column, text)]), Err((19, place)));
        }
    }
    assert_eq!(with(2, 9, "180.0000").inclination, 1 << 31);
    for text in ["180.0001", "359.9999"] {
        assert_eq!(station(&[(2, 9, text)]), Err((4, 0)));
    }
    for (text, value) in [("0000000", 0), ("0000001", 1), ("0375000", 375_000)] {
        assert_eq!(with(2, 27, text).eccentricity, value);
    }
    for (text, value) in
        [(" 0.20220000", 20_220_000), ("  .21000000", 21_000_000), ("17.00000000", 1_700_000_000)]
    {
        assert_eq!(station(&[(1, 34, " .00000000"), (2, 53, text)]).unwrap().mean_motion, value);
    }
    for (text, value) in [("     ", 0), ("    1", 1), ("00060", 60), ("99999", 99_999)] {
        assert_eq!(with(2, 64, text).epoch_revolution, value);
    }
}

/// Full seconds, from the first to the last of the years.
#[test]
fn years_and_days() {
    let at = |year: &str, day: &str| {
        station(&[(1, 19, year), (1, 21, day)]).map(|elements| elements.epoch)
    };
    for (year, day, epoch) in [
        ("57", "001.00000000", -1_041_292_800),
        ("57", "365.00000000", -1_041_292_800 + 364 * 86_400),
        ("58", "001.00000000", -1_041_292_800 + 365 * 86_400),
        ("70", "001.00000000", -631_065_600),
        ("89", "365.00000000", 0),
        ("90", "001.50000000", 86_400 + 43_200),
        ("99", "365.99999999", 315_619_199),
        ("00", "001.00000000", 315_619_200),
        ("00", "366.00000000", 347_155_200),
        ("01", "001.00000000", 347_155_200 + 86_400),
        ("56", "366.99999999", 2_114_380_800 + 86_399),
    ] {
        assert_eq!(at(year, day), Ok(epoch), "{year} {day}");
    }
    for of_century in 0..100 {
        let year = format!("{of_century:02}");
        let leap = of_century % 4 == 0;
        for (day, inside) in [
            ("000.00000000", false),
            ("000.99999999", false),
            ("001.00000000", true),
            ("365.99999999", true),
            ("366.00000000", leap),
            ("366.99999999", leap),
            ("367.00000000", false),
            ("999.99999999", false),
        ] {
            let outcome = at(&year, day);
            assert_eq!(outcome.is_ok(), inside, "{year} {day}");
            assert!(inside || outcome == Err((19, 21)));
        }
    }
}

/// 10.546875 revolutions a day are 2^18 units in half a second.
const HALF_SECOND: [Change; 2] = [(1, 24, ".00015625"), (2, 53, "10.54687500")];

/// The mean anomaly goes back by what is cut, down, and over the start of a turn.
#[test]
fn the_cut_part() {
    let anomaly = |fraction, motion, anomaly| {
        station(&[(1, 24, fraction), (2, 53, motion), (2, 44, anomaly)]).unwrap().mean_anomaly
    };
    let [(_, _, half), (_, _, motion)] = HALF_SECOND;
    assert_eq!(anomaly(half, motion, " 90.0000"), (1 << 30) - (1 << 18));
    assert_eq!(anomaly(half, motion, "000.0000"), 0_u32.wrapping_sub(1 << 18));
    assert_eq!(anomaly(half, "10.54687499", " 90.0000"), (1 << 30) - (1 << 18) + 1);
    for (fraction, back) in [
        (".00000000", 0),
        (".50000000", 0),
        (".00001157", 844_777),
        (".00001158", 432),
        // 86,399.999136 s.
        (".99999999", 844_344),
    ] {
        assert_eq!(anomaly(fraction, "17.00000000", " 90.0000"), (1 << 30) - back, "{fraction}");
    }
}

/// The sum of mean anomaly and argument of perigee is about 2^18, on either side of a turn.
#[test]
fn the_revolution_goes_back() {
    let revolution = |anomaly, perigee, revolution, changes: [Change; 2]| {
        let angles = [(2, 44, anomaly), (2, 35, perigee), (2, 64, revolution)];
        station(&[&changes[..], &angles].concat()).unwrap().epoch_revolution
    };
    for (anomaly, perigee, revolution_before, after) in [
        // 261,277 and 262,470 units.
        ("   .0219", "000.0000", "00060", 59),
        ("   .0220", "000.0000", "00060", 60),
        ("000.0000", "   .0219", "    1", 0),
        ("000.0000", "   .0220", "    1", 1),
        ("   .0219", "000.0000", "     ", 0),
        ("   .0219", "000.0000", "00000", 0),
        ("   .0219", "000.0000", "99999", 99_998),
        // Over a turn.
        ("359.9999", "   .0220", "00060", 59),
        ("   .0221", "359.9999", "00060", 60),
        // The one is below, and the sum is not; the sum is next to a turn.
        ("   .0001", " 90.0000", "00060", 60),
        ("000.0000", "359.9999", "00060", 60),
        ("000.0000", "000.0000", "00060", 59),
    ] {
        assert_eq!(
            revolution(anomaly, perigee, revolution_before, HALF_SECOND),
            after,
            "{anomaly} {perigee} {revolution_before}"
        );
    }
    // The amount is the 262,470 units of 0.022 degrees, and then one more.
    let [half, _] = HALF_SECOND;
    for (motion, after) in [("10.55999101", 60), ("10.56003123", 60), ("10.56003124", 59)] {
        assert_eq!(revolution("   .0220", "000.0000", "00060", [half, (2, 53, motion)]), after);
    }
    // Each angle is cut by itself: these make 261,276 units, and 0.0219 degrees 261,277, which is the amount.
    let motion = (2, 53, "10.51199288");
    assert_eq!(revolution("359.9999", "   .0220", "00060", [half, motion]), 59);
    assert_eq!(revolution("   .0219", "000.0000", "00060", [half, motion]), 60);
    // A full second cuts nothing, and no sum is below that.
    let full = [(1, 24, ".50000000"), (2, 53, "10.54687500")];
    assert_eq!(revolution("000.0000", "000.0000", "00060", full), 60);
}

/// 5 in its turn, where 32 bits would begin again too.
#[test]
fn mean_motions_past_32_bits() {
    for motion in
        ["42.94967295", "42.94967296", "43.14967296", "58.67093000", "59.94967296", "99.99999999"]
    {
        let fast = (2, 53, motion);
        assert_eq!(station(&[fast]), Err((5, 0)), "{motion}");
        assert_eq!(station(&[fast, (2, 9, "180.0001")]), Err((4, 0)));
        assert_eq!(station(&[fast, (1, 34, " .99999999")]), Err((5, 0)));
        // With the most that a second can cut.
        assert_eq!(station(&[fast, (1, 24, ".00001157")]), Err((5, 0)));
    }
    for motion in ["17.00000001", " 0.19999999", "  .00000000"] {
        assert_eq!(station(&[(2, 53, motion), (1, 34, " .00000000")]), Err((5, 0)));
    }
}

#[test]
fn lengths_and_numbers_of_lines() {
    let sound = changed(STATION, &[]);
    for line in [0, 1] {
        for length in (0..=140).filter(|length| *length != COLUMNS) {
            let mut lines = sound.clone();
            lines[line].resize(length, b'0');
            assert_eq!(read(&lines), Err((17, 0)), "{length}");
        }
    }
    let [first, second] = sound;
    assert_eq!(read(&[second.clone(), first.clone()]), Err((17, 0)));
    assert_eq!(read(&[first.clone(), first.clone()]), Err((17, 0)));
    assert_eq!(read(&[second.clone(), second]), Err((17, 0)));
}

#[test]
fn checksums() {
    let sound = changed(STATION, &[]);
    for line in [0, 1] {
        for byte in (0..=255).filter(|byte| *byte != sound[line][COLUMNS - 1]) {
            let mut lines = sound.clone();
            lines[line][COLUMNS - 1] = byte;
            assert_eq!(read(&lines), Err((18, 0)));
        }
        // Column 17 is in no field: a minus counts 1, a digit itself, all else nothing.
        for byte in 0..=255 {
            let mut lines = sound.clone();
            assert_eq!(lines[line][16], b' ');
            lines[line][16] = byte;
            let counts = match byte {
                b'-' => 1,
                b'0'..=b'9' => byte - b'0',
                _ => 0,
            };
            assert_eq!(read(&lines).is_ok(), counts == 0);
            let checksum = &mut lines[line][COLUMNS - 1];
            *checksum = b'0' + (*checksum - b'0' + counts) % 10;
            assert!(read(&lines).is_ok());
        }
    }
}

/// All that can be wrong at once, put right one by one. 7 and 8 cannot be met: the revolution has five digits, and the
/// years are within the range.
#[test]
fn order_of_the_refusals() {
    let sound = changed(STATION, &[]);
    let mut lines = changed(
        STATION,
        &[
            (1, 1, "0 2554xU 98067A   x8000.51782528 x.00002182"),
            (2, 1, "0 2554x 360.0000 360.0000 000670x 360.0000 360.0000 1x.72125391x6353"),
        ],
    );
    lines.iter_mut().for_each(|line| *line.last_mut().unwrap() = b'x');
    lines[0].push(b' ');
    lines[1].pop();
    let mut beside = (6_599_999, i32::MIN, i32::MAX);
    let right = |lines: &mut Lines, line: usize, first: usize, text: &str| {
        lines[line - 1][first - 1..][..text.len()].copy_from_slice(text.as_bytes());
    };

    assert_eq!(read_beside(&lines, beside), Err((17, 0)));
    lines[0].pop();
    assert_eq!(read_beside(&lines, beside), Err((17, 0)));
    lines[1].push(b'x');
    assert_eq!(read_beside(&lines, beside), Err((17, 0)));
    right(&mut lines, 1, 1, "1");
    assert_eq!(read_beside(&lines, beside), Err((17, 0)));
    right(&mut lines, 2, 1, "2");
    assert_eq!(read_beside(&lines, beside), Err((18, 0)));
    let mut mended = lines.clone();
    mend(&mut mended);
    lines[0] = mended[0].clone();
    assert_eq!(read_beside(&lines, beside), Err((18, 0)));
    lines[1] = mended[1].clone();
    for (line, first, text, place) in [
        (1, 3, "25544", 3),
        (1, 19, "08", 19),
        (1, 21, "264", 21),
        (1, 34, " .99999999", 34),
        (2, 3, "25545", 72),
        (2, 9, "180.0001", 78),
        (2, 18, "247.4627", 87),
        (2, 27, "9000001", 96),
        (2, 35, "130.5360", 104),
        (2, 44, "325.0288", 113),
        (2, 53, "17.00000001", 122),
        (2, 64, "56353", 133),
    ] {
        assert_eq!(read_beside(&lines, beside), Err((19, place)));
        right(&mut lines, line, first, text);
        mend(&mut lines);
    }
    type Mend = fn(&mut Lines, &mut (u32, i32, i32));
    let mends: [(u32, Mend); 8] = [
        (20, |lines, _| lines[1][2..7].copy_from_slice(b"25544")),
        (1, |lines, _| lines[1][26..33].copy_from_slice(b"0200000")),
        (2, |_, beside| beside.0 = 6_600_000),
        (3, |lines, _| lines[1][26..33].copy_from_slice(b"0006703")),
        (4, |lines, _| lines[1][8..16].copy_from_slice(b" 51.6416")),
        (5, |lines, _| lines[1][52..63].copy_from_slice(b"15.72125391")),
        (6, |_, beside| (beside.1, beside.2) = (-200_000, 200_000)),
        (16, |lines, _| lines[0][33..43].copy_from_slice(b"-.00002182")),
    ];
    for (number, put_right) in mends {
        assert_eq!(read_beside(&lines, beside), Err((number, 0)));
        put_right(&mut lines, &mut beside);
        mend(&mut lines);
    }
    assert_eq!(lines, sound);
    assert!(read_beside(&lines, beside).is_ok());
}

/// All that the types allow beside the lines.
#[test]
fn axes_and_rates() {
    let sound = changed(STATION, &[]);
    let outcome = |beside| read_beside(&sound, beside).map(|_| ());
    for axis in [0, 6_599_999, 100_000_001, u32::MAX] {
        assert_eq!(outcome((axis, i32::MIN, i32::MAX)), Err((2, 0)));
    }
    for rate in [-200_001, 200_001, i32::MIN, i32::MAX] {
        assert_eq!(outcome((6_730_960, rate, 0)), Err((6, 0)));
        assert_eq!(outcome((6_730_960, 0, rate)), Err((6, 0)));
    }
    for (axis, rate) in [(6_600_000, -200_000), (100_000_000, 200_000)] {
        let elements = read_beside(&sound, (axis, rate, -rate)).unwrap();
        assert_eq!(elements.semi_major_axis, axis);
        assert_eq!((elements.node_rate, elements.perigee_rate), (rate, -rate));
    }
}
