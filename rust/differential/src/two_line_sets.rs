//! Two-line elements with what comes beside them: sound sets, and texts for the fields.

use std::fmt::{self, Debug, Formatter};

use reference::two_line::COLUMNS;
use yurdelmiz::TwoLineField;

use crate::inputs;
use crate::random::Random;
use crate::report::Text;

/// A line, and a column of it from 1.
pub type Column = (usize, usize);

pub const FIRST_SATELLITE: Column = (1, 3);
pub const YEAR: Column = (1, 19);
pub const DAY: Column = (1, 21);
/// The fraction of the day, from its point on.
pub const FRACTION: Column = (1, 24);
pub const HALF_DERIVATIVE: Column = (1, 34);
pub const SECOND_SATELLITE: Column = (2, 3);
pub const INCLINATION: Column = (2, 9);
pub const NODE: Column = (2, 18);
pub const ECCENTRICITY: Column = (2, 27);
pub const ARGUMENT_OF_PERIGEE: Column = (2, 35);
pub const MEAN_ANOMALY: Column = (2, 44);
pub const MEAN_MOTION: Column = (2, 53);
pub const REVOLUTION: Column = (2, 64);

/// Texts of each field that are at an edge of it, next to one, or bad, with bars between them.
pub const EDGES: [(Column, &str); 12] = [
    (FIRST_SATELLITE, NUMBERS),
    (YEAR, "00|56|57|99|  | 7|7 |-7|+7|7.|/0|:0|x0"),
    (DAY, DAYS),
    (HALF_DERIVATIVE, HALF_DERIVATIVES),
    (SECOND_SATELLITE, NUMBERS),
    (INCLINATION, DEGREES),
    (NODE, DEGREES),
    (ECCENTRICITY, ECCENTRICITIES),
    (ARGUMENT_OF_PERIGEE, DEGREES),
    (MEAN_ANOMALY, DEGREES),
    (MEAN_MOTION, MEAN_MOTIONS),
    (REVOLUTION, NUMBERS),
];

const NUMBERS: &str = "     |    0|00000|    1|  001|00001|99999\
    |1    |1   1|0   1| 1 11|1111 |    -|-0001|+0001|1.000|A0001|0000/|0000:";

const DAYS: &str = "000.00000000|000.99999999|001.00000000|001.99999999|365.00000000|365.99999999\
    |366.00000000|366.99999999|367.00000000|999.99999999|  1.00000000| 12.00000000|12 .00000000\
    |   .00000000|001 00000000|00100000.000|0010.0000000|01.000000000|001.0000000 |001.        \
    |001. 0000000|-01.00000000|001.0000000/|001.0000000:|            ";

const HALF_DERIVATIVES: &str = " .00000000|+.00000000|-.00000000| .00000001|-.00000001| .01000000\
    |-.01000000| .01000001|-.01000001| .99999999|-.99999999|0.00000000|..00000000|  .0000000\
    | 0.0000000|- .0000000|-0.0000000| .0000000 | .        | . 0000000|          | .-0000000\
    |*.00000000|,.00000000";

const DEGREES: &str = "   .0000|  0.0000| 00.0000|000.0000|   .0001|  9.0000| 90.0000|179.9999\
    |180.0000|180.0001|359.9999|360.0000|360.0001|999.9999|1  .0000|1 0.0000|10 .0000| 1 .0000\
    |0  .0000|000.000 |   .    |000. 000|000 0000|00.00000|0000.000|-10.0000|+10.0000|   .000/\
    |  :.0000|        ";

const ECCENTRICITIES: &str = "0000000|0000001|9000000|9000001|9999999|      0| 000000|000000 \
    |0.00000|.000000|000 000|-000000|000000/|000000:|       ";

/// Those past 32 bits too, and such as would be accepted if the bits above were lost.
const MEAN_MOTIONS: &str =
    "  .00000000| 0.00000000|00.19999999|  .20000000| 0.20000000|00.20000001\
    |16.99999999|17.00000000|17.00000001|21.47483647|21.47483648|42.94967295|42.94967296\
    |42.94967297|43.14967296|58.67093000|59.94967296|59.94967297|99.99999999|1 .00000000\
    |0 .20000000| 1 00000000|  1.0000000|1.000000000|-1.00000000|+1.00000000| 1.0000000 \
    | 1.        |  .0000000/| 1.0000000:|           ";

/// Bytes that mean something in a line, and neighbours of such.
pub const BYTES: &[u8] = b"  ..--++0123456789/:,;AZaz\0\t\n\r\x1f!~\x7f\x80\xb0\xff";

/// Two lines, and what comes beside them.
#[derive(Clone)]
pub struct Set {
    pub lines: [Vec<u8>; 2],
    pub semi_major_axis: u32,
    pub node_rate: i32,
    pub perigee_rate: i32,
}

impl Debug for Set {
    fn fmt(&self, f: &mut Formatter) -> fmt::Result {
        let [first, second] = self.lines.each_ref().map(|line| Text(line));
        let Set { semi_major_axis, node_rate, perigee_rate, .. } = self;
        write!(f, "{first:?}, {second:?}, {semi_major_axis}, {node_rate}, {perigee_rate}")
    }
}

impl Set {
    /// Puts a text from a column on.
    pub fn put(&mut self, (line, column): Column, text: &str) {
        self.lines[line - 1][column - 1..][..text.len()].copy_from_slice(text.as_bytes());
    }

    /// Puts right the checksums.
    pub fn mend(&mut self) {
        for line in &mut self.lines {
            let counted = line[..COLUMNS - 1].iter().map(|byte| match byte {
                b'-' => 1,
                b'0'..=b'9' => usize::from(byte - b'0'),
                _ => 0,
            });
            line[COLUMNS - 1] = b"0123456789"[counted.sum::<usize>() % 10];
        }
    }

    /// The set with other texts, and right checksums.
    pub fn with(&self, texts: &[(Column, &str)]) -> Set {
        let mut set = self.clone();
        for (column, text) in texts {
            set.put(*column, text);
        }
        set.mend();
        set
    }
}

/// Makes leading zeros blank: all, some or none.
fn with_blanks(random: &mut Random, mut text: String) -> String {
    let zeros = text.bytes().take_while(|byte| *byte == b'0').count();
    let blanks = match random.below(3) {
        0 => zeros,
        1 => 0,
        _ => random.index(zeros + 1),
    };
    text.replace_range(..blanks, &" ".repeat(blanks));
    text
}

/// A satellite number or revolution.
pub fn number(random: &mut Random, number: u64) -> String {
    with_blanks(random, format!("{number:05}"))
}

pub fn degrees(random: &mut Random, ten_thousandths: u64) -> String {
    let text = format!("{:03}.{:04}", ten_thousandths / 10_000, ten_thousandths % 10_000);
    with_blanks(random, text)
}

pub fn mean_motion(random: &mut Random, motion: u64) -> String {
    with_blanks(random, format!("{:02}.{:08}", motion / 100_000_000, motion % 100_000_000))
}

pub fn half_derivative(random: &mut Random, half_derivative: i64) -> String {
    let sign = match half_derivative {
        0 => random.pick(&[' ', '+', '-']),
        1.. => random.pick(&[' ', '+']),
        _ => '-',
    };
    format!("{sign}.{:08}", half_derivative.unsigned_abs())
}

/// Below a bound, often 0 or the last.
pub fn often_an_end(random: &mut Random, bound: u64) -> u64 {
    match random.below(6) {
        0 => 0,
        1 => bound - 1,
        _ => random.below(bound),
    }
}

/// A fraction of a day in 10^-8: any, at an end, or next to a full second.
pub fn fraction(random: &mut Random) -> u64 {
    if random.one_in(2) {
        return often_an_end(random, 100_000_000);
    }
    let second = often_an_end(random, 86_400);
    // The first at or behind the second: each counts 864 millionths.
    let at = (second * 1_000_000).div_ceil(864);
    at.saturating_sub(random.below(2))
}

/// The columns of a line that are not looked at, but count in the checksum.
fn columns_between(line: usize) -> impl Iterator<Item = usize> {
    (2..COLUMNS).filter(move |column| {
        !TwoLineField::ALL
            .iter()
            .any(|field| field.line == line && (field.first..=field.last).contains(column))
    })
}

/// A set that is accepted.
pub fn sound(random: &mut Random) -> Set {
    let mut lines = [
        b"1 25544U 98067A   08264.51782528 -.00002182  00000-0 -11606-4 0  2927".to_vec(),
        b"2 25544  51.6416 247.4627 0006703 130.5360 325.0288 15.72125391563537".to_vec(),
    ];
    if random.one_in(4) {
        for (line, bytes) in [1, 2].into_iter().zip(&mut lines) {
            for column in columns_between(line) {
                let any = random.one_in(2);
                bytes[column - 1] = if any { random.u64() as u8 } else { random.pick(BYTES) };
            }
        }
    }
    let satellite = often_an_end(random, 100_000);
    let year = random.below(100);
    let day = 1 + often_an_end(random, if year.is_multiple_of(4) { 366 } else { 365 });
    let motion = 20_000_000 + often_an_end(random, 1_680_000_001);
    let most = ((motion - 20_000_000) / 60).min(1_000_000) as i64;
    let derivative = match random.below(3) {
        0 => 0,
        1 => random.pick(&[-most, most]),
        _ => random.between(-most, most),
    };
    let inclination = often_an_end(random, 1_800_001);
    let [node, perigee, anomaly] = [0; 3].map(|_| often_an_end(random, 3_600_000));
    let revolution = often_an_end(random, 100_000);
    let eccentricity = inputs::accepted_eccentricity(random);
    let least_axis = inputs::least_axis(eccentricity) as u32;
    let [node_rate, perigee_rate] = [0; 2].map(|_| inputs::up_to(random, 400_000) as i32 - 200_000);

    let mut set = Set {
        lines,
        semi_major_axis: least_axis + inputs::up_to(random, 100_000_000 - least_axis),
        node_rate,
        perigee_rate,
    };
    set.put(FIRST_SATELLITE, &number(random, satellite));
    set.put(YEAR, &format!("{year:02}"));
    set.put(DAY, &format!("{day:03}.{:08}", fraction(random)));
    set.put(HALF_DERIVATIVE, &half_derivative(random, derivative));
    set.put(SECOND_SATELLITE, &number(random, satellite));
    set.put(INCLINATION, &degrees(random, inclination));
    set.put(NODE, &degrees(random, node));
    set.put(ECCENTRICITY, &format!("{eccentricity:07}"));
    set.put(ARGUMENT_OF_PERIGEE, &degrees(random, perigee));
    set.put(MEAN_ANOMALY, &degrees(random, anomaly));
    set.put(MEAN_MOTION, &mean_motion(random, motion));
    set.put(REVOLUTION, &number(random, revolution));
    set.mend();
    set
}
