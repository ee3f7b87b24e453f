//! Shade, and the elevation of the Sun above the orbit's plane.

use crate::orbit::Position;
use crate::refusal::Refusal;
use crate::sine::{cosine, sine, Angle, ONE};
use crate::sun::Direction;

/// The Earth's radius, in metres.
const EARTH_RADIUS: i64 = 6_378_000;

/// The radius of the Sun, 696,000,000 m, less the Earth's and plus the Earth's.
const SUN_LESS_EARTH: i64 = 689_622_000;
const SUN_PLUS_EARTH: i64 = 702_378_000;

/// From the Earth to the Sun, in metres, as source document 000 has it.
const SUN_DISTANCE: i64 = 149_600_000_000;

/// How much of the Sun the Earth hides.
#[derive(Clone, Copy, Debug, PartialEq, Eq)]
pub enum Shade {
    /// Sunlight.
    Lit = 0,
    /// The umbra.
    Dark = 1,
    /// The penumbra.
    Part = 2,
}

/// The umbra's radius at a depth behind the Earth's centre, in metres.
pub fn umbra_radius(depth: i64) -> i64 {
    EARTH_RADIUS - depth * SUN_LESS_EARTH / SUN_DISTANCE
}

/// The penumbra's radius at a depth behind the Earth's centre, in metres.
pub fn penumbra_radius(depth: i64) -> i64 {
    EARTH_RADIUS + depth * SUN_PLUS_EARTH / SUN_DISTANCE
}

/// The shade rule, for a position within 580,000,000 in each component, as labelling's are, and a
/// direction within 2^30.
///
/// Then no product overflows: position · Sun is below 2^61 and the depth below 2^31, so the depth times
/// 702,378,000 is below 2^61 and no square reaches 2^62.
pub(crate) fn shade_at(position: Position, sun: Direction) -> Shade {
    let Position { x, y, z } = position;
    let p = (x * sun.x + y * sun.y + z * sun.z) / ONE;
    if p >= 0 {
        return Shade::Lit;
    }
    let depth = -p;
    let side_squared = x * x + y * y + z * z - p * p;
    if side_squared < umbra_radius(depth).pow(2) {
        Shade::Dark
    } else if side_squared < penumbra_radius(depth).pow(2) {
        Shade::Part
    } else {
        Shade::Lit
    }
}

/// The shade test; refusal 14.
pub fn shade(position: Position, sun: Direction) -> Result<Shade, Refusal> {
    let metres = -200_000_000..=200_000_000;
    let unit = -ONE..=ONE;
    let position_holds = [position.x, position.y, position.z].iter().all(|v| metres.contains(v));
    let sun_holds = [sun.x, sun.y, sun.z].iter().all(|v| unit.contains(v));
    if position_holds && sun_holds {
        Ok(shade_at(position, sun))
    } else {
        Err(Refusal::Component)
    }
}

/// Sine of the Sun's elevation above the orbit's plane, in units of 2^-30.
pub fn elevation_sine(inclination: Angle, node: Angle, sun: Direction) -> i32 {
    let normal = Direction {
        x: sine(inclination) * sine(node) / ONE,
        y: -(sine(inclination) * cosine(node) / ONE),
        z: cosine(inclination),
    };
    let sum = (normal.x * sun.x + normal.y * sun.y + normal.z * sun.z) / ONE;
    sum.clamp(-ONE, ONE) as i32
}
