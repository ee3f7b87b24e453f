//! Makes the telemetry of the example day: `oscar10 ELEMENTS TELEMETRY`.
//!
//! The same bytes at every run. The elements are those of the worked example in source document 001, for 1985
//! August 12; the 24 hours start on August 29 at 13:45, in the same eclipse season, and meet an eclipse in each
//! of three revolutions on three sides. The Sun and the shadow are the library's; battery, panels and faults are
//! a model of no particular satellite.

use std::env;
use std::error::Error;
use std::fs;

use yurdelmiz::{parse_elements, position, shade, sun, Elements, Sample, Shade};

/// 1985-08-29 13:45:00.
const START: i64 = -136_894_500;
const STEP_SECONDS: i64 = 90;
const RECORDS: usize = 960;
const SEED: u32 = 10;

/// Degrees of the spin axis from the direction of perigee, in the orbit's plane.
const TWIST: f64 = -30.0;
const PANEL_WATTS: f64 = 48.0;
/// Of the panels' watts in sunlight, what they give in the penumbra.
const PENUMBRA_SHARE: f64 = 0.5;
const HOUSEKEEPING_WATTS: f64 = 7.5;
const TRANSPONDER_WATTS: f64 = 15.0;
/// Degrees of mean anomaly at which the transponder is switched on and off.
const TRANSPONDER_ON: std::ops::RangeInclusive<f64> = 40.0..=300.0;
const CAPACITY_AMPERE_HOURS: f64 = 6.0;
const CHARGE_AT_START: f64 = 0.93;
const CHARGE_AMPERES_MAX: f64 = 1.6;

/// The Mersenne Twister MT19937, seeded with an array of one number.
struct Twister {
    state: [u32; 624],
    at: usize,
}

impl Twister {
    fn new(seed: u32) -> Twister {
        let mut state = [0; 624];
        state[0] = 19_650_218u32;
        for i in 1..624 {
            let last: u32 = state[i - 1];
            state[i] = (last ^ (last >> 30)).wrapping_mul(1_812_433_253).wrapping_add(i as u32);
        }
        let mut i = 1;
        for _ in 0..624 {
            let last = state[i - 1];
            state[i] =
                (state[i] ^ (last ^ (last >> 30)).wrapping_mul(1_664_525)).wrapping_add(seed);
            i = step(&mut state, i);
        }
        for _ in 0..623 {
            let last = state[i - 1];
            state[i] = (state[i] ^ (last ^ (last >> 30)).wrapping_mul(1_566_083_941))
                .wrapping_sub(i as u32);
            i = step(&mut state, i);
        }
        state[0] = 0x8000_0000;
        Twister { state, at: 624 }
    }

    fn next(&mut self) -> u32 {
        if self.at == 624 {
            for i in 0..624 {
                let y = (self.state[i] & 0x8000_0000) | (self.state[(i + 1) % 624] & 0x7fff_ffff);
                let turned = (y >> 1) ^ if y & 1 == 1 { 0x9908_b0df } else { 0 };
                self.state[i] = self.state[(i + 397) % 624] ^ turned;
            }
            self.at = 0;
        }
        let mut y = self.state[self.at];
        self.at += 1;
        y ^= y >> 11;
        y ^= (y << 7) & 0x9d2c_5680;
        y ^= (y << 15) & 0xefc6_0000;
        y ^ (y >> 18)
    }

    /// From 0 up to 1, in steps of 2^-53.
    fn uniform(&mut self) -> f64 {
        let (high, low) = (self.next() >> 5, self.next() >> 6);
        (f64::from(high) * 67_108_864.0 + f64::from(low)) / 9_007_199_254_740_992.0
    }

    /// Near-normal noise, from uniform numbers alone.
    fn noise(&mut self, deviation: f64) -> f64 {
        deviation * ((0..12).map(|_| self.uniform()).sum::<f64>() - 6.0)
    }
}

/// The next place of the seeding, from 1 to 623, and round.
fn step(state: &mut [u32; 624], i: usize) -> usize {
    if i == 623 {
        state[0] = state[623];
        1
    } else {
        i + 1
    }
}

fn radians(angle: u32) -> f64 {
    f64::from(angle) * std::f64::consts::TAU / 4_294_967_296.0
}

/// Mean anomaly in degrees, and the lit share of the panels: 0 in the umbra.
fn illumination(elements: &Elements, time: i64) -> Result<(f64, f64), Box<dyn Error>> {
    let days = (time - elements.epoch) as f64 / 86_400.0;
    let change = f64::from(elements.half_mean_motion_derivative) * days;
    let turns = (f64::from(elements.mean_motion) + change) * 1e-8 * days;
    let mean = (radians(elements.mean_anomaly).to_degrees() + 360.0 * turns).rem_euclid(360.0);
    let state = position(elements, time)?;
    let sun = sun(time)?.direction;
    let share = match shade(state.celestial, sun)? {
        Shade::Lit => 1.0,
        Shade::Part => PENUMBRA_SHARE,
        Shade::Dark => return Ok((mean, 0.0)),
    };
    let rate = f64::from(elements.perigee_rate) * 1e-4;
    let turn = radians(elements.argument_of_perigee) + (rate * days - TWIST).to_radians();
    let (inclination, node) = (radians(elements.inclination), radians(state.node));
    let (x, y) = (turn.cos(), turn.sin() * inclination.cos());
    let axis = [
        x * node.cos() - y * node.sin(),
        x * node.sin() + y * node.cos(),
        turn.sin() * inclination.sin(),
    ];
    let sun = [sun.x, sun.y, sun.z].map(|component| component as f64 / f64::from(1 << 30));
    let along: f64 = axis.iter().zip(sun).map(|(a, s)| a * s).sum();
    Ok((mean, share * (1.0 - along * along).sqrt()))
}

/// Rounded to some decimal places, as a telemetry channel gives it.
fn rounded(value: f64, places: usize) -> f64 {
    format!("{value:.places$}").parse().expect("a decimal")
}

/// The day's faults: a link lost, single numbers lost, and channels out of their range.
fn faulty(record: usize, volts: f32, amperes: f32) -> (f32, f32) {
    let infinite = f32::INFINITY;
    match record {
        701..=709 | 560 => (f32::NAN, f32::NAN),
        27 => (f32::NAN, amperes),
        237 | 871 => (volts, f32::NAN),
        51 | 52 | 516 => (volts, infinite),
        382 => (volts, -infinite),
        787 => (infinite, amperes),
        788 => (infinite, infinite),
        _ => (volts, amperes),
    }
}

fn telemetry(elements: &Elements) -> Result<Vec<u8>, Box<dyn Error>> {
    let mut random = Twister::new(SEED);
    let (mut charge, mut volts) = (CHARGE_AT_START, 14.0);
    let mut bytes = Vec::new();
    for record in 0..RECORDS {
        let time = START + STEP_SECONDS * record as i64;
        let (mean, lit) = illumination(elements, time)?;
        // The penumbra does not switch it off.
        let transponder = lit > 0.0 && TRANSPONDER_ON.contains(&mean);
        let load = HOUSEKEEPING_WATTS + if transponder { TRANSPONDER_WATTS } else { 0.0 };
        // The charger gives less as the battery fills.
        let most = CHARGE_AMPERES_MAX * (0.05 + (1.0 - charge) / 0.25).min(1.0);
        let amperes = ((PANEL_WATTS * lit - load) / volts).min(most);
        volts = 12.2 + 2.0 * charge + 0.45 * amperes;
        charge =
            (charge + amperes * STEP_SECONDS as f64 / 3_600.0 / CAPACITY_AMPERE_HOURS).min(1.0);
        let measured_volts = rounded(volts + random.noise(0.03), 2) as f32;
        let measured_amperes = rounded(amperes + random.noise(0.025), 3) as f32;
        let (volts, amperes) = faulty(record, measured_volts, measured_amperes);
        bytes.extend(Sample { time, volts, amperes }.to_bytes());
    }
    Ok(bytes)
}

fn main() -> Result<(), Box<dyn Error>> {
    let words: Vec<String> = env::args().skip(1).collect();
    let [elements, output] = &words[..] else {
        return Err("usage: oscar10 ELEMENTS TELEMETRY".into());
    };
    let elements = parse_elements(&fs::read(elements)?)?;
    fs::write(output, telemetry(&elements)?)?;
    Ok(())
}

/// The committed example is what this makes.
#[test]
fn makes_the_example() {
    let folder = concat!(env!("CARGO_MANIFEST_DIR"), "/../../examples/oscar10");
    let elements = parse_elements(&fs::read(format!("{folder}/elements.txt")).unwrap()).unwrap();
    assert!(telemetry(&elements).unwrap() == fs::read(format!("{folder}/telemetry.bin")).unwrap());
}
