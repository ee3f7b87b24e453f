//! Random and edge inputs.

use reference::eclipse::{shade, Shade};
use reference::file::file_bytes;
use reference::kepler::{mean_anomaly_of, ECCENTRICITY_MAX};
use reference::orbit::Elements;
use reference::sine::sine;

use crate::random::Random;

pub const TIME_MIN: i64 = -2_834_956_800;
pub const TIME_MAX: i64 = 3_476_476_799;

/// The most seconds from the epoch, with a mean motion that stays and with one that changes.
const SPAN_MAX: i64 = 31_622_400;
const CHANGING_SPAN_MAX: i64 = 2_592_000;

/// Any number: uniform, small, or next to an edge.
pub fn number(random: &mut Random, edges: &[u32]) -> u32 {
    match random.below(4) {
        0 => random.pick(edges).wrapping_add(random.below(5) as u32).wrapping_sub(2),
        1 => random.u32() >> random.below(32),
        _ => random.u32(),
    }
}

/// Any number up to the most, often none or all.
pub fn up_to(random: &mut Random, most: u32) -> u32 {
    match random.below(4) {
        0 => 0,
        1 => most,
        _ => random.below(u64::from(most) + 1) as u32,
    }
}

/// At a bound, next to it, at the end of the numbers, or anywhere.
pub fn about(random: &mut Random, bound: u32) -> u32 {
    match random.below(8) {
        0 => bound,
        1..=3 => bound.wrapping_add(1),
        4 => u32::MAX,
        5 => u32::MAX - random.below(3) as u32,
        6 => 1 << 31,
        _ => random.u32() >> random.below(32),
    }
}

pub fn angle(random: &mut Random) -> u32 {
    number(random, &[0, 1 << 30, 1 << 31, 3 << 30])
}

/// From `low` to `high`, often at or near one of them.
fn within(random: &mut Random, low: i64, high: i64) -> i64 {
    match random.below(6) {
        0 => (low + random.below(3) as i64).min(high),
        1 => (high - random.below(3) as i64).max(low),
        _ => random.between(low, high),
    }
}

pub fn eccentricity(random: &mut Random) -> u32 {
    if random.one_in(16) {
        return number(random, &[0, 9_000_000, 10_000_000]);
    }
    accepted_eccentricity(random)
}

pub fn accepted_eccentricity(random: &mut Random) -> u32 {
    match random.below(16) {
        0 | 1 => 0,
        2 => random.between(0, 1_000) as u32,
        // The only one for which a square root in 53-bit floats gives another minor axis.
        3 => 606_756,
        _ => within(random, 0, 9_000_000) as u32,
    }
}

/// Where the sine goes back by a step or more: from `angle` to the next it falls in a quarter in
/// which it rises, or rises in one in which it falls.
fn turns_back(angle: u32) -> bool {
    let (here, next) = (sine(angle), sine(angle.wrapping_add(1)));
    match angle >> 30 {
        0 | 3 => next < here,
        _ => next > here,
    }
}

/// An eccentric anomaly, from 0 to a whole turn: any, next to the end of a quarter, or next to an
/// angle where the sine turns back (about one in a hundred).
fn eccentric_anomaly(random: &mut Random) -> i64 {
    let angle = random.u32();
    match random.below(4) {
        0 => {
            let quarter = random.pick(&[0, 1, 2, 2, 3, 4, 4]) << 30;
            (quarter + random.between(-100, 100)).clamp(0, 1 << 32)
        }
        1 => i64::from(angle),
        _ => {
            let steps = (0..1_000).find(|&step| turns_back(angle.wrapping_add(step)));
            let angle = angle.wrapping_add(steps.unwrap_or(0));
            (i64::from(angle) + random.between(-1, 2)).clamp(0, 1 << 32)
        }
    }
}

/// An eccentricity and a mean anomaly. Most mean anomalies are those of an eccentric anomaly, or one
/// beside: there the halving's last step is decided by a single unit.
pub fn kepler(random: &mut Random) -> (u32, u32) {
    let eccentricity = match random.below(8) {
        0 => 1,
        1 => 9_000_000,
        _ => eccentricity(random),
    };
    if eccentricity > ECCENTRICITY_MAX || random.one_in(4) {
        return (eccentricity, angle(random));
    }
    let anomaly = eccentric_anomaly(random);
    let mean = mean_anomaly_of(eccentricity, anomaly) + random.between(-1, 1);
    (eccentricity, mean.clamp(0, i64::from(u32::MAX)) as u32)
}

/// The least semi-major axis that the perigee allows.
pub fn least_axis(eccentricity: u32) -> i64 {
    let above_perigee = 10_000_000 - i64::from(eccentricity);
    let least = (64_780_000_000_000 + above_perigee - 1) / above_perigee;
    least.max(6_600_000)
}

/// Half the derivative of the mean motion: none as often as one, and that at times next to none.
fn accepted_half_derivative(random: &mut Random) -> i32 {
    match random.below(8) {
        0..=3 => 0,
        4 => random.between(-20, 20) as i32,
        _ => within(random, -1_000_000, 1_000_000) as i32,
    }
}

/// The least mean motion that half its derivative allows.
pub fn least_motion(half_derivative: i32) -> i64 {
    20_000_000 + 60 * i64::from(half_derivative).abs()
}

pub fn accepted_elements(random: &mut Random) -> Elements {
    let eccentricity = accepted_eccentricity(random);
    let half_derivative = accepted_half_derivative(random);
    Elements {
        eccentricity,
        semi_major_axis: within(random, least_axis(eccentricity), 100_000_000) as u32,
        inclination: within(random, 0, 1 << 31) as u32,
        node: angle(random),
        argument_of_perigee: angle(random),
        mean_anomaly: angle(random),
        mean_motion: within(random, least_motion(half_derivative), 1_700_000_000) as u32,
        node_rate: within(random, -200_000, 200_000) as i32,
        perigee_rate: within(random, -200_000, 200_000) as i32,
        epoch_revolution: within(random, 0, 99_999) as u32,
        epoch: within(random, TIME_MIN, TIME_MAX),
        half_mean_motion_derivative: half_derivative,
    }
}

/// Takes one element out of range, or to its edge.
fn damage(random: &mut Random, elements: &mut Elements) {
    let rates = [200_000_u32, 200_001, 200_000_u32.wrapping_neg(), 200_001_u32.wrapping_neg()];
    let half_derivatives = [1_000_000, 1_000_000_u32.wrapping_neg(), 1 << 31];
    match random.below(10) {
        0 => elements.eccentricity = number(random, &[9_000_000, 10_000_000]),
        1 => elements.semi_major_axis = number(random, &[6_600_000, 100_000_000]),
        2 => {
            elements.semi_major_axis = (least_axis(elements.eccentricity.min(9_000_000)) - 1) as u32
        }
        3 => elements.inclination = number(random, &[1 << 31]),
        4 => elements.mean_motion = number(random, &[20_000_000, 1_700_000_000]),
        5 if random.one_in(2) => elements.node_rate = number(random, &rates) as i32,
        5 => elements.perigee_rate = number(random, &rates) as i32,
        6 => elements.epoch_revolution = number(random, &[99_999]),
        7 => elements.half_mean_motion_derivative = number(random, &half_derivatives) as i32,
        8 => elements.mean_motion = (least_motion(elements.half_mean_motion_derivative) - 1) as u32,
        _ => elements.epoch = any_time(random),
    }
}

/// Elements, of which one set in five has been damaged, perhaps more than once.
pub fn elements(random: &mut Random) -> Elements {
    let mut elements = accepted_elements(random);
    if random.one_in(5) {
        damage(random, &mut elements);
        while random.one_in(3) {
            damage(random, &mut elements);
        }
    }
    elements
}

/// Any time: in range, next to its edges, or far out.
pub fn any_time(random: &mut Random) -> i64 {
    match random.below(16) {
        0 => random.pick(&[TIME_MIN - 1, TIME_MIN, TIME_MAX, TIME_MAX + 1]),
        1 => random.pick(&[i64::MIN, i64::MIN + 1, i64::MAX, i64::from(i32::MIN), 1 << 32]),
        2 => random.u64() as i64 >> random.below(64),
        3 => random.between(-200_000, 200_000),
        _ => random.between(TIME_MIN, TIME_MAX),
    }
}

/// The first and the last time that go with these elements, whose epoch is in range.
fn times(elements: &Elements) -> (i64, i64) {
    let span = match elements.half_mean_motion_derivative {
        0 => SPAN_MAX,
        _ => CHANGING_SPAN_MAX,
    };
    ((elements.epoch - span).max(TIME_MIN), (elements.epoch + span).min(TIME_MAX))
}

/// A time that labelling with these elements would take, where there is one.
pub fn near_time(random: &mut Random, elements: &Elements) -> i64 {
    let epoch = elements.epoch;
    if !(TIME_MIN..=TIME_MAX).contains(&epoch) {
        return any_time(random);
    }
    let (low, high) = times(elements);
    match random.below(4) {
        0 => within(random, low, high),
        1 => (epoch + random.between(-100_000, 100_000)).clamp(low, high),
        _ => random.between(low, high),
    }
}

/// A time for these elements, now and then one that is refused.
pub fn time(random: &mut Random, elements: &Elements) -> i64 {
    let span = random.pick(&[SPAN_MAX, CHANGING_SPAN_MAX]) + random.between(0, 1);
    match random.below(16) {
        0 => any_time(random),
        1 => elements.epoch.saturating_add(span),
        2 => elements.epoch.saturating_sub(span),
        _ => near_time(random, elements),
    }
}

/// Accepted elements and two times for them, of which the second is not the earlier. The first is
/// next to a passage of the mean node, before the epoch or after it, often at the end of the times
/// accepted. Often the perigee drifts as fast as is accepted, either way, and the mean motion is the
/// least, at the epoch or, where it changes, at that end.
pub fn node_passage(random: &mut Random) -> (Elements, [i64; 2]) {
    const TURN: f64 = 4_294_967_296.0;

    let mut elements = accepted_elements(random);
    if random.one_in(2) {
        elements.perigee_rate = random.pick(&[-200_000, 200_000]);
    }
    if random.one_in(4) {
        elements.mean_motion = least_motion(elements.half_mean_motion_derivative) as u32;
    }
    let (low, high) = times(&elements);

    // The mean argument of latitude at the epoch, what it gains in a second, and by how much more in
    // the square of the seconds.
    let at_epoch = f64::from(elements.mean_anomaly) + f64::from(elements.argument_of_perigee);
    let by_motion = f64::from(elements.mean_motion) * TURN / 8_640_000_000_000.0;
    let by_drift = f64::from(elements.perigee_rate) * TURN / 3_600_000.0 / 86_400.0;
    let gain = by_motion + by_drift;
    let half = f64::from(elements.half_mean_motion_derivative) * 1_024.0 / 177_978_515_625.0;
    let somewhere = (within(random, low, high) - elements.epoch) as f64;
    let turns = ((at_epoch + somewhere * (gain + somewhere * half)) / TURN).round();
    // The root of half·x² + gain·x = missing at which the latitude rises.
    let missing = turns * TURN - at_epoch;
    let rise = (gain * gain + 4.0 * half * missing).max(0.0).sqrt();
    let passage = elements.epoch + (2.0 * missing / (gain + rise)).floor() as i64;
    let time = (passage + random.between(-1, 2)).clamp(low, high);

    let later = match random.below(4) {
        0 => random.between(time, high),
        _ => time + random.between(0, 2),
    };
    (elements, [time, later.min(high)])
}

/// The bits of a volts or amperes number.
pub fn reading_bits(random: &mut Random) -> u32 {
    let sign = (random.below(2) as u32) << 31;
    let magnitude = match random.below(8) {
        // Infinity, and NaNs with any payload.
        0 => 0x7f80_0000,
        1 => 0x7f80_0001 + random.below(0x7f_ffff) as u32,
        // Zero and numbers below the normal ones.
        2 => 0,
        3 => random.below(0x80_0000) as u32,
        // Around the square root of the greatest number, and the greatest.
        4 => 0x5f7f_ffff + random.below(3) as u32,
        5 => 0x7f7f_ffff - random.below(3) as u32,
        // Some volts.
        6 => 0x4000_0000 + random.below(0x200_0000) as u32,
        _ => random.u32() >> 1,
    };
    sign | magnitude
}

/// How many records a day has: mostly few.
fn records(random: &mut Random) -> usize {
    match random.below(128) {
        0 => 1_024,
        1 => random.between(65, 1_024) as usize,
        2 => random.between(1_025, 1_030) as usize,
        3..=15 => 0,
        16..=63 => random.between(9, 64) as usize,
        _ => random.between(1, 8) as usize,
    }
}

/// Adds a record.
fn record(random: &mut Random, time: i64, telemetry: &mut Vec<u8>) {
    telemetry.extend(time.to_le_bytes());
    telemetry.extend(reading_bits(random).to_le_bytes());
    telemetry.extend(reading_bits(random).to_le_bytes());
}

/// A day's telemetry for these elements: at times ragged, or with a record that is refused.
pub fn telemetry(random: &mut Random, elements: &Elements) -> Vec<u8> {
    let records = records(random);
    let bad = random.one_in(6).then(|| random.index(records.max(1)));
    let mut bytes = Vec::with_capacity(records * 16);
    for number in 0..records {
        let time = if bad.is_some_and(|bad| number >= bad && random.one_in(2)) {
            time(random, elements)
        } else {
            near_time(random, elements)
        };
        record(random, time, &mut bytes);
    }
    if random.one_in(16) {
        let length = bytes.len() + random.index(16);
        bytes.resize(length, 0x5a);
    }
    bytes
}

/// A day on which the orbit's normal points at the Sun or away from it, so that the elevation sine
/// meets its bounds.
pub fn facing_sun(random: &mut Random) -> (Elements, Vec<u8>) {
    use std::f64::consts::{FRAC_PI_2, TAU};

    let mut elements = accepted_elements(random);
    elements.epoch = random.between(TIME_MIN + 60, TIME_MAX - 60);
    let sun = reference::sun::sun(elements.epoch).expect("a time in range").direction;
    let [x, y, z] = [sun.x, sun.y, sun.z].map(|component| component as f64 / f64::from(1 << 30));
    let angle = |radians: f64| ((radians / TAU).rem_euclid(1.0) * 4_294_967_296.0) as u32;
    let away = random.one_in(2);
    let declination = if away { -z.asin() } else { z.asin() };
    let right_ascension = if away { f64::atan2(-y, -x) } else { f64::atan2(y, x) };
    elements.inclination = angle(FRAC_PI_2 - declination);
    elements.node = angle(right_ascension + FRAC_PI_2);
    elements.node_rate = 0;

    let mut telemetry = Vec::new();
    for _ in 0..8 {
        let time = elements.epoch + random.between(-60, 60);
        record(random, time, &mut telemetry);
    }
    (elements, telemetry)
}

/// A day about the withheld revolution ahead of those of test, or the one behind them; at times with records that are
/// refused.
pub fn changes_of_side(random: &mut Random) -> (Elements, Vec<u8>) {
    let mut elements = accepted_elements(random);
    elements.epoch = random.between(TIME_MIN, TIME_MAX);
    elements.epoch_revolution = 80 * random.below(1_249) as u32 + random.pick(&[64, 80]);
    let (low, high) = times(&elements);
    let three_revolutions = 3 * 8_640_000_000_000 / i64::from(elements.mean_motion);
    let (bad, most) = (random.one_in(8), if random.one_in(64) { 1_024 } else { 48 });
    let mut telemetry = Vec::new();
    for _ in 0..random.between(3, most) {
        let near = elements.epoch + random.between(-three_revolutions, three_revolutions);
        let bad = bad && random.one_in(8);
        let time = if bad { time(random, &elements) } else { near.clamp(low, high) };
        record(random, time, &mut telemetry);
    }
    (elements, telemetry)
}

/// The satellite's shade at a time that goes with its elements.
fn shade_at(elements: &Elements, time: i64) -> Shade {
    let position = elements.state(time).expect("accepted").position;
    let sun = reference::sun::sun(time).expect("accepted").direction;
    shade(position, sun).expect("a satellite within the range of 14")
}

/// A day with a record in the last second of a shade and in the first of the next, for each change of
/// shade in about a revolution.
pub fn eclipse(random: &mut Random) -> (Elements, Vec<u8>) {
    const STEPS: i64 = 64;

    let elements = accepted_elements(random);
    let (_, high) = times(&elements);
    let mut time = near_time(random, &elements);
    let period = 8_640_000_000_000 / i64::from(elements.mean_motion);
    let mut telemetry = Vec::new();
    for _ in 0..STEPS {
        let end = (time + period / STEPS).min(high);
        while shade_at(&elements, time) != shade_at(&elements, end) {
            let shade = shade_at(&elements, time);
            let mut next = end;
            while next - time > 1 {
                let middle = (time + next).div_euclid(2);
                if shade_at(&elements, middle) == shade {
                    time = middle;
                } else {
                    next = middle;
                }
            }
            record(random, time, &mut telemetry);
            record(random, next, &mut telemetry);
            time = next;
        }
        time = end;
    }
    (elements, telemetry)
}

/// Room for the output: enough, a byte short, or something else.
pub fn room(random: &mut Random, telemetry: usize) -> usize {
    let exact = file_bytes(telemetry / 16);
    match random.below(16) {
        0 => exact - 1,
        1 => random.index(exact),
        2..=7 => exact + random.index(100),
        _ => exact,
    }
}

/// A number to take the root of: any, of any length, at or next to a power of two, or at or next to
/// either end of the numbers that have one root.
pub fn radicand(random: &mut Random) -> u64 {
    match random.below(4) {
        0 => random.u64(),
        1 => random.u64() >> random.below(64),
        2 => (1_u64 << random.below(64)).wrapping_add(random.below(5)).wrapping_sub(2),
        _ => {
            let root = u64::from(random.u32() >> random.below(32));
            (root * root).wrapping_add(random.pick(&[u64::MAX, 0, 2 * root, 2 * root + 1]))
        }
    }
}
