//! Orbital elements and the position they give.

use crate::kepler::{self, EccentricAnomaly, ECCENTRICITY_MAX, ECCENTRICITY_ONE};
use crate::refusal::Refusal;
use crate::sine::{cosine, sine, Angle, HALF_TURN, ONE};

/// Earliest and latest time and epoch: 1900 Mar 1 to 2100 Feb 28.
const TIMES: std::ops::RangeInclusive<i64> = -2_834_956_800..=3_476_476_799;

/// The most seconds between epoch and time, where the mean motion stays and where it changes.
const SPAN_MAX: u64 = 31_622_400;
const CHANGING_SPAN_MAX: u64 = 2_592_000;

/// n·Δ over this is in revolutions: 86,400 seconds a day, and 10^8 for the unit of n.
const REVOLUTION: i64 = 8_640_000_000_000;

/// A turn, in the unit of angles.
const TURN: i64 = 1 << 32;

/// Orbital elements, in document 01's units.
#[derive(Clone, Copy, Debug, PartialEq, Eq)]
pub struct Elements {
    /// e, in units of 10^-7.
    pub eccentricity: u32,
    /// a, in metres.
    pub semi_major_axis: u32,
    pub inclination: Angle,
    /// Right ascension of the ascending node at the epoch.
    pub node: Angle,
    /// At the epoch.
    pub argument_of_perigee: Angle,
    /// M0, at the epoch.
    pub mean_anomaly: Angle,
    /// n, at the epoch, in 10^-8 revolutions a day.
    pub mean_motion: u32,
    /// In 10^-4 degree a day.
    pub node_rate: i32,
    /// In 10^-4 degree a day.
    pub perigee_rate: i32,
    pub epoch_revolution: u32,
    /// Seconds from 1990 Jan 0.0.
    pub epoch: i64,
    /// d, half the first derivative of the mean motion, as two-line elements have it, in 10^-8
    /// revolutions a day squared.
    pub half_mean_motion_derivative: i32,
}

/// A point, in metres.
#[derive(Clone, Copy, Debug, PartialEq, Eq)]
pub struct Position {
    pub x: i64,
    pub y: i64,
    pub z: i64,
}

/// Where the satellite is at a time.
#[derive(Clone, Copy, Debug, PartialEq, Eq)]
pub struct State {
    pub revolution: i32,
    pub anomaly: EccentricAnomaly,
    /// Distance from the Earth's centre, in metres.
    pub radius: i64,
    /// Celestial position.
    pub position: Position,
    /// The node as drifted.
    pub node: Angle,
}

/// Refusal 8 for one time: its range.
pub fn check_time(time: i64) -> Result<(), Refusal> {
    if TIMES.contains(&time) {
        Ok(())
    } else {
        Err(Refusal::Time)
    }
}

impl Elements {
    /// Refusals 1 to 7, 16, then 8 for the epoch.
    pub fn check(&self) -> Result<(), Refusal> {
        if self.eccentricity > ECCENTRICITY_MAX {
            return Err(Refusal::Eccentricity);
        }
        if !(6_600_000..=100_000_000).contains(&self.semi_major_axis) {
            return Err(Refusal::SemiMajorAxis);
        }
        let perigee =
            u64::from(self.semi_major_axis) * u64::from(ECCENTRICITY_ONE - self.eccentricity);
        if perigee < 6_478_000 * u64::from(ECCENTRICITY_ONE) {
            return Err(Refusal::PerigeeDistance);
        }
        if self.inclination > HALF_TURN {
            return Err(Refusal::Inclination);
        }
        if !(20_000_000..=1_700_000_000).contains(&self.mean_motion) {
            return Err(Refusal::MeanMotion);
        }
        let rates = -200_000..=200_000;
        if !rates.contains(&self.node_rate) || !rates.contains(&self.perigee_rate) {
            return Err(Refusal::DriftRate);
        }
        if self.epoch_revolution > 99_999 {
            return Err(Refusal::EpochRevolution);
        }
        let size = self.half_mean_motion_derivative.unsigned_abs();
        if size > 1_000_000 || self.mean_motion < 20_000_000 + 60 * size {
            return Err(Refusal::MeanMotionDerivative);
        }
        check_time(self.epoch)
    }

    /// Refusal 8 for a time, the epoch being in range.
    fn elapsed(&self, time: i64) -> Result<i64, Refusal> {
        check_time(time)?;
        let most = match self.half_mean_motion_derivative {
            0 => SPAN_MAX,
            _ => CHANGING_SPAN_MAX,
        };
        if time.abs_diff(self.epoch) > most {
            return Err(Refusal::Time);
        }
        Ok(time - self.epoch)
    }

    /// Revolution and mean anomaly ("Turns", "Revolution").
    fn turns(&self, elapsed: i64) -> (i32, Angle) {
        let product = i64::from(self.mean_motion) * elapsed;
        let whole = product.div_euclid(REVOLUTION);
        let rest = product.rem_euclid(REVOLUTION);
        let part = (rest << 17) / 263_671_875;
        let a = whole * TURN + part + change(self.half_mean_motion_derivative, elapsed);
        let anomaly = i64::from(self.mean_anomaly) + a;
        let b = drift(self.perigee_rate, elapsed);
        let at_epoch = i64::from(self.mean_anomaly) + i64::from(self.argument_of_perigee);
        let revolution = i64::from(self.epoch_revolution) + (at_epoch + a + b).div_euclid(TURN)
            - at_epoch.div_euclid(TURN);
        (revolution as i32, anomaly as u32)
    }

    /// State at `time` of elements that `check` accepts; refusal 8.
    pub(crate) fn checked_state(&self, time: i64) -> Result<State, Refusal> {
        let elapsed = self.elapsed(time)?;
        let (revolution, mean_anomaly) = self.turns(elapsed);
        let node = drifted(self.node, self.node_rate, elapsed);
        let perigee = drifted(self.argument_of_perigee, self.perigee_rate, elapsed);

        let anomaly = kepler::solve(self.eccentricity, mean_anomaly)?;
        let (s, c) = (sine(anomaly.angle), cosine(anomaly.angle));
        let a = i64::from(self.semi_major_axis);
        let e30 = i64::from(self.eccentricity) * ONE / i64::from(ECCENTRICITY_ONE);
        let b = (ONE * ONE - e30 * e30).isqrt();
        let in_plane = Position { x: a * (c - e30) / ONE, y: a * (b * s / ONE) / ONE, z: 0 };
        Ok(State {
            revolution,
            anomaly,
            radius: a * (ONE - e30 * c / ONE) / ONE,
            position: in_plane
                .turned_about_z(perigee)
                .turned_about_x(self.inclination)
                .turned_about_z(node),
            node,
        })
    }

    /// State at `time`; refusals 1 to 8 and 16.
    pub fn state(&self, time: i64) -> Result<State, Refusal> {
        self.check()?;
        self.checked_state(time)
    }
}

/// What the change of the mean motion adds over `elapsed` seconds, before wrapping.
fn change(half_derivative: i32, elapsed: i64) -> i64 {
    let elapsed = i128::from(elapsed);
    let product = (i128::from(half_derivative) * elapsed * elapsed) << 10;
    product.div_euclid(177_978_515_625) as i64
}

/// The drift at `rate` over `elapsed` seconds, before wrapping.
fn drift(rate: i32, elapsed: i64) -> i64 {
    ((i64::from(rate) * elapsed) << 18).div_euclid(18_984_375)
}

/// An angle after drifting.
fn drifted(angle: Angle, rate: i32, elapsed: i64) -> Angle {
    angle.wrapping_add(drift(rate, elapsed) as u32)
}

/// The pair (u, v) turned by `angle`.
fn turn(u: i64, v: i64, angle: Angle) -> (i64, i64) {
    let (s, c) = (sine(angle), cosine(angle));
    ((u * c - v * s) / ONE, (u * s + v * c) / ONE)
}

impl Position {
    pub fn turned_about_z(self, angle: Angle) -> Position {
        let (x, y) = turn(self.x, self.y, angle);
        Position { x, y, z: self.z }
    }

    pub fn turned_about_x(self, angle: Angle) -> Position {
        let (y, z) = turn(self.y, self.z, angle);
        Position { x: self.x, y, z }
    }

    /// A celestial position in Earth-fixed axes, at the Greenwich hour angle `ghaa`.
    pub fn earth_fixed(self, ghaa: Angle) -> Position {
        let (s, c) = (sine(ghaa), cosine(ghaa));
        Position {
            x: (c * self.x + s * self.y) / ONE,
            y: (c * self.y - s * self.x) / ONE,
            z: self.z,
        }
    }
}
