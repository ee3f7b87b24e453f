//! Comparisons of two-line elements: sound sets, each with a byte changed at every column, edges of every field, the
//! node within the part of a second that is cut, several faults at once, and any lengths.
//!
//! 7 and 8 cannot be met: the revolution has five columns, and every epoch from 1957 to 2056 is within the range.

use std::cmp::Ordering;

use reference::sine::angle;
use reference::two_line::{two_line, COLUMNS};
use yurdelmiz::{ffi, parse_two_line, Elements};

use crate::answers::{library_refused, reference_refused, Refused};
use crate::inputs;
use crate::lent::Lent;
use crate::numbers::library_elements;
use crate::random::Random;
use crate::report::Report;
use crate::two_line_sets::*;

/// What a refusal 19 is counted as, by its place.
const BAD_FIELDS: [(u32, &str); 12] = [
    (3, "19 at 3: satellite number"),
    (19, "19 at 19: year"),
    (21, "19 at 21: day"),
    (34, "19 at 34: half the derivative"),
    (72, "19 at 72: satellite number"),
    (78, "19 at 78: inclination"),
    (87, "19 at 87: node"),
    (96, "19 at 96: eccentricity"),
    (104, "19 at 104: argument of perigee"),
    (113, "19 at 113: mean anomaly"),
    (122, "19 at 122: mean motion"),
    (133, "19 at 133: revolution"),
];

/// The refusals that can be met.
const REFUSALS: [u32; 11] = [1, 2, 3, 4, 5, 6, 16, 17, 18, 19, 20];

const ACCEPTED: &str = "accepted";
const BELOW: &str = "node: sum below the amount, and the revolution goes back";
const BELOW_AT_0: &str = "node: sum below the amount, and the revolution is 0";
const AT: &str = "node: sum at the amount";
const ABOVE: &str = "node: sum above the amount";
const OVER_A_TURN: &str = "node: sum over a turn";

/// Two lines and an answer, lent to a call.
struct LentSet<'a> {
    set: &'a Set,
    lines: [Lent; 2],
    answer: Lent,
    answer_before: Vec<u8>,
}

impl<'a> LentSet<'a> {
    fn new(random: &mut Random, set: &'a Set, answer_len: usize) -> LentSet<'a> {
        let answer_before = random.bytes(answer_len);
        let lines = set.lines.each_ref().map(|line| Lent::new(line));
        LentSet { set, lines, answer: Lent::new(&answer_before), answer_before }
    }

    /// The result, with the lent bytes compared: a refusal changes none, and no call any but those of the answer.
    fn call(&mut self, report: &mut Report) -> u64 {
        let set = self.set;
        let [first, second] = self.lines.each_mut().map(|line| line.bytes());
        let answer = self.answer.bytes();
        // SAFETY: the slices are `first`, `second` and `answer`.
        let result = unsafe {
            ffi::yurdelmiz_two_line(
                first.as_ptr(),
                first.len(),
                second.as_ptr(),
                second.len(),
                set.semi_major_axis,
                set.node_rate,
                set.perigee_rate,
                answer.as_mut_ptr(),
                answer.len(),
            )
        };
        report.bytes(set, "line 1", first, &set.lines[0]);
        report.bytes(set, "line 2", second, &set.lines[1]);
        if result != 0 {
            report.bytes(set, "answer after a refusal", answer, &self.answer_before);
        }
        let guarded = self.lines.iter().chain([&self.answer]).all(Lent::guarded);
        report.equal(set, "bytes outside the slices", guarded, true);
        result
    }
}

fn library(random: &mut Random, report: &mut Report, set: &Set) -> Result<Elements, Refused> {
    let mut lent = LentSet::new(random, set, ffi::ELEMENTS_BYTES);
    match lent.call(report) {
        0 => {
            let answer = lent.answer.bytes()[..].try_into().expect("bytes of elements");
            Ok(Elements::from_bytes(answer))
        }
        result => Err((result as u32, (result >> 32) as u32)),
    }
}

/// Compares the library, by itself and through its Rust face, with the reference, whose outcome is given.
fn outcome(random: &mut Random, report: &mut Report, set: &Set) -> Result<Elements, Refused> {
    let Set { lines: [first, second], semi_major_axis, node_rate, perigee_rate } = set;
    let reference = two_line(first, second, *semi_major_axis, *node_rate, *perigee_rate)
        .map(|elements| library_elements(&elements))
        .map_err(reference_refused);
    match reference {
        Ok(_) => report.answer(ACCEPTED),
        Err((19, place)) => {
            let (_, kind) = BAD_FIELDS.iter().find(|(at, _)| *at == place).expect("a field");
            report.answer(kind);
        }
        Err(_) => {}
    }
    let through_c = library(random, report, set);
    let binding = parse_two_line([first, second], *semi_major_axis, *node_rate, *perigee_rate)
        .map_err(library_refused);
    report.equal(set, "binding", binding, through_c);
    report.outcomes(set, through_c, reference);
    reference
}

fn compare(random: &mut Random, report: &mut Report, set: &Set) {
    let _ = outcome(random, report, set);
}

/// A byte that is not this one, often a blank.
fn another(random: &mut Random, than: u8) -> u8 {
    loop {
        let byte = match random.below(8) {
            0 => random.u64() as u8,
            1 | 2 => b' ',
            _ => random.pick(BYTES),
        };
        if byte != than {
            return byte;
        }
    }
}

/// A byte changed at every column of both lines, each with the checksum as it was and with the right one.
fn changed_everywhere(random: &mut Random, report: &mut Report, set: &Set) {
    for line in [0, 1] {
        for column in 0..COLUMNS {
            let mut changed = set.clone();
            let byte = &mut changed.lines[line][column];
            *byte = another(random, *byte);
            compare(random, report, &changed);
            changed.mend();
            compare(random, report, &changed);
        }
    }
}

fn edges(random: &mut Random, report: &mut Report, set: &Set) {
    for (column, texts) in EDGES {
        for text in texts.split('|') {
            compare(random, report, &set.with(&[(column, text)]));
        }
    }
    for year in ["56", "57", "00", "99", "04", "90"] {
        for day in ["000", "001", "365", "366", "367"] {
            for fraction in [".00000000", ".00001157", ".00001158", ".99999999"] {
                let texts = [(YEAR, year), (DAY, day), (FRACTION, fraction)];
                compare(random, report, &set.with(&texts));
            }
        }
    }
    for rate in [-200_001, -200_000, 0, 200_000, 200_001, i32::MIN, i32::MAX] {
        compare(random, report, &Set { node_rate: rate, ..set.clone() });
        compare(random, report, &Set { perigee_rate: rate, ..set.clone() });
    }
    for axis in [0, 6_599_999, 6_600_000, 100_000_000, 100_000_001, u32::MAX] {
        compare(random, report, &Set { semi_major_axis: axis, ..set.clone() });
    }
}

/// The least axis of an eccentricity, the least mean motion of half a derivative, satellite numbers that are the same
/// however they are written, and others.
fn edges_of_two(random: &mut Random, report: &mut Report, set: &Set) {
    // From here on it is the perigee distance that sets the least axis.
    let eccentricity = random.between(200_000, 9_000_000) as u32;
    let least = inputs::least_axis(eccentricity) as u32;
    let eccentric = set.with(&[(ECCENTRICITY, &format!("{eccentricity:07}"))]);
    for axis in [least - 1, least] {
        compare(random, report, &Set { semi_major_axis: axis, ..eccentric.clone() });
    }

    let derivative = random.between(-1_000_000, 1_000_000);
    let least = 20_000_000 + 60 * derivative.unsigned_abs();
    let changing = set.with(&[(HALF_DERIVATIVE, &half_derivative(random, derivative))]);
    for motion in [least - 1, least] {
        let motion = mean_motion(random, motion);
        compare(random, report, &changing.with(&[(MEAN_MOTION, &motion)]));
    }

    let one = often_an_end(random, 100_000);
    let other = (one + random.pick(&[1, 10, 50_000, 99_999])) % 100_000;
    for (first, second) in [(one, one), (one, other), (other, one)] {
        let (first, second) = (number(random, first), number(random, second));
        let texts = [(FIRST_SATELLITE, &first[..]), (SECOND_SATELLITE, &second)];
        compare(random, report, &set.with(&texts));
    }
}

/// Mean motions next to those whose amount is the sum of mean anomaly and argument of perigee, or one more: there a
/// unit decides on the revolution.
fn node_passage(
    random: &mut Random,
    report: &mut Report,
    set: &Set,
    revolution: u32,
    over_a_turn: bool,
) {
    // A tenth of a second or more, in which 17 revolutions a day are 0.007 degrees.
    let (fraction, part) = loop {
        let fraction = fraction(random);
        let part = u128::from(fraction * 864 % 1_000_000);
        if part > 100_000 {
            break (fraction, part);
        }
    };
    const TURN: u128 = 4_119_873_046_875;
    let amount = |motion: u64| (u128::from(motion) * part * 2_048 / TURN) as u32;
    let least_motion = |amount: u32| (u128::from(amount) * TURN).div_ceil(part * 2_048) as u64;
    let (anomaly, perigee, sum) = loop {
        let degrees = random.below(709);
        let perigee = if over_a_turn {
            random.between(degrees as i64 + 1, 3_599_999) as u64
        } else {
            random.below(degrees + 1)
        };
        let anomaly = (3_600_000 + degrees - perigee) % 3_600_000;
        let sum = angle(anomaly).wrapping_add(angle(perigee));
        if (amount(20_000_000) + 2..amount(1_700_000_000) - 2).contains(&sum) {
            break (anomaly, perigee, sum);
        }
    };

    let mut set = set.clone();
    set.put(FRACTION, &format!(".{fraction:08}"));
    set.put(HALF_DERIVATIVE, " .00000000");
    set.put(ARGUMENT_OF_PERIGEE, &degrees(random, perigee));
    set.put(MEAN_ANOMALY, &degrees(random, anomaly));
    set.put(REVOLUTION, &number(random, revolution.into()));
    let (at, below) = (least_motion(sum), least_motion(sum + 1));
    for motion in [at - 1, at, below - 1, below] {
        let order = sum.cmp(&amount(motion));
        report.answer(match order {
            Ordering::Less if revolution > 0 => BELOW,
            Ordering::Less => BELOW_AT_0,
            Ordering::Equal => AT,
            Ordering::Greater => ABOVE,
        });
        if over_a_turn {
            report.answer(OVER_A_TURN);
        }
        let set = set.with(&[(MEAN_MOTION, &mean_motion(random, motion))]);
        let found = outcome(random, report, &set).map(|elements| elements.epoch_revolution);
        let back = u32::from(order == Ordering::Less);
        report.equal(&set, "revolution", found, Ok(revolution.saturating_sub(back)));
    }
}

/// Several faults and edges in one set, the checksums mostly right.
fn several(random: &mut Random, report: &mut Report, set: &Set) {
    let mut set = set.clone();
    for _ in 0..random.between(2, 6) {
        match random.below(8) {
            0 => {
                let line = random.index(2);
                set.lines[line][random.index(COLUMNS)] = random.pick(BYTES);
            }
            1 => set.semi_major_axis = inputs::number(random, &[0, 6_600_000, 100_000_000]),
            2 => set.node_rate = inputs::number(random, &[0, 200_000, 1 << 31]) as i32,
            3 => set.perigee_rate = inputs::number(random, &[0, 200_000, 1 << 31]) as i32,
            _ => {
                let (column, texts) = random.pick(&EDGES);
                let texts: Vec<_> = texts.split('|').collect();
                set.put(column, random.pick(&texts));
            }
        }
    }
    if !random.one_in(8) {
        set.mend();
    }
    compare(random, report, &set);
}

/// Lines of any lengths, the other's checksum right or not, in each other's place, or one of them twice.
fn lengths(random: &mut Random, report: &mut Report, set: &Set) {
    for line in [0, 1] {
        let mut set = set.clone();
        let byte = random.pick(b"0 ");
        set.lines[line].resize(random.index(141), byte);
        compare(random, report, &set);
        let checksum = &mut set.lines[1 - line][COLUMNS - 1];
        *checksum = another(random, *checksum);
        compare(random, report, &set);
        set.lines[1 - line].resize(random.index(141), byte);
        compare(random, report, &set);
    }
    let [first, second] = &set.lines;
    for lines in [[second, first], [first, first], [second, second]] {
        compare(random, report, &Set { lines: lines.map(Vec::clone), ..set.clone() });
    }
}

/// An answer of another length is told before all else.
fn answer_lengths(random: &mut Random, report: &mut Report, set: &Set) {
    let right = ffi::ELEMENTS_BYTES;
    let any = [random.index(right), right + 1 + random.index(100)];
    for length in [0, right - 1, right + 1].into_iter().chain(any) {
        let mut set = set.clone();
        if random.one_in(2) {
            let line = random.index(2);
            set.lines[line].truncate(random.index(COLUMNS + 1));
        }
        let result = LentSet::new(random, &set, length).call(report);
        report.equal(&(&set, length), "bad buffer", result, u64::from(ffi::BAD_BUFFER));
    }
}

pub fn two_lines(random: &mut Random, report: &mut Report) {
    for (_, kind) in BAD_FIELDS {
        report.due(kind);
    }
    for kind in [ACCEPTED, BELOW, BELOW_AT_0, AT, ABOVE, OVER_A_TURN] {
        report.due(kind);
    }
    for number in REFUSALS {
        report.due_refusal(number);
    }
    let set = sound(random);
    let accepted = outcome(random, report, &set).is_ok();
    report.equal(&set, "accepted", accepted, true);
    changed_everywhere(random, report, &set);
    edges(random, report, &set);
    edges_of_two(random, report, &set);
    for over_a_turn in [false, true] {
        for revolution in [0, 1, 99_999] {
            node_passage(random, report, &set, revolution, over_a_turn);
        }
    }
    for _ in 0..100 {
        several(random, report, &set);
    }
    lengths(random, report, &set);
    answer_lengths(random, report, &set);
}
