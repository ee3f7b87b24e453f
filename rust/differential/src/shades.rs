//! Comparisons of shade, most of them at positions aimed at an edge of the umbra or of the penumbra.
//!
//! The radius of an edge at a depth is the reference's. With the Sun along an axis depth and side are
//! coordinates: side² is the square of the radius, exactly or as nearly as whole metres make it, and
//! one coordinate is moved by one. With any other Sun the side that gives the radius is computed in
//! floats, and of several positions the one nearest to the edge is taken.

use reference::eclipse::{penumbra_radius, umbra_radius};
use reference::orbit::Position;
use reference::sun::Direction;

use crate::inputs;
use crate::random::Random;
use crate::report::Report;

const ONE: i64 = 1 << 30;

/// The largest component of a position that refusal 14 leaves.
const FARTHEST: i64 = 200_000_000;

/// An edge's radius at a depth behind the Earth's centre.
type Edge = fn(i64) -> i64;

fn edge(random: &mut Random) -> Edge {
    random.pick(&[umbra_radius as Edge, penumbra_radius])
}

/// A component next to the edges of `bound`, or anything.
fn component(random: &mut Random, bound: i64) -> i64 {
    match random.below(8) {
        0 => random.pick(&[-bound - 1, -bound, bound, bound + 1]),
        1 => random.pick(&[i64::MIN, i64::MAX, 0]),
        2 => random.u64() as i64 >> random.below(64),
        _ => random.between(-bound, bound),
    }
}

/// The Sun at some time.
fn some_sun(random: &mut Random) -> Direction {
    let time = random.between(inputs::TIME_MIN, inputs::TIME_MAX);
    reference::sun::sun(time).expect("a time in range").direction
}

/// The least depth with the radius of this one: the quotient steps there, every 213 to 217 m.
fn step(edge: Edge, depth: i64) -> i64 {
    let less = (0..depth).rev().take(217).find(|&less| edge(less) != edge(depth));
    less.map_or(depth, |less| less + 1)
}

/// The Sun along an axis, and a position on the edge, one coordinate at times one off. Its depth is
/// any, next to 0, so small that quotients are 0 or 1, or where a quotient steps.
fn along_an_axis(random: &mut Random) -> (Position, Direction) {
    let edge = edge(random);
    let depth = match random.below(8) {
        0 => random.between(-FARTHEST, -1),
        1 => random.between(-1, 1),
        2 => random.between(1, 500),
        3 => random.between(1, FARTHEST),
        _ => step(edge, random.between(1, FARTHEST)),
    };
    let radius = edge(depth);
    let across = match random.below(3) {
        0 => [radius, 0],
        1 => [radius / 5 * 3, radius / 5 * 4],
        _ => {
            let side = random.between(0, radius);
            [side, (radius * radius - side * side).isqrt()]
        }
    };
    let mut position = [-depth, across[0], -across[1]];
    position[random.index(3)] += random.between(-1, 1);
    let mut sun = [ONE, 0, 0];
    if random.one_in(2) {
        position[0] = -position[0];
        sun[0] = -ONE;
    }
    let axis = random.index(3);
    position.rotate_right(axis);
    sun.rotate_right(axis);
    let ([x, y, z], [sun_x, sun_y, sun_z]) = (position, sun);
    (Position { x, y, z }, Direction { x: sun_x, y: sun_y, z: sun_z })
}

fn length(vector: [f64; 3]) -> f64 {
    vector.iter().map(|component| component * component).sum::<f64>().sqrt()
}

/// By how much side² at a position misses the square of the radius.
fn miss(edge: Edge, Position { x, y, z }: Position, sun: Direction) -> i128 {
    let p = (x * sun.x + y * sun.y + z * sun.z) / ONE;
    let square = |metres: i64| i128::from(metres).pow(2);
    (square(x) + square(y) + square(z) - square(p) - square(edge(-p))).abs()
}

/// A position at a depth and within metres of the edge, for a Sun of any length.
fn near_the_edge(random: &mut Random, edge: Edge, sun: Direction, depth: i64) -> Position {
    let sun_line = [sun.x, sun.y, sun.z].map(|component| component as f64 / ONE as f64);
    let sun_length = length(sun_line);
    let unit = sun_line.map(|component| component / sun_length);
    let mut position = || {
        let radius = (edge(depth) + random.between(-2, 2)) as f64;
        // p is what the position has along the Sun's line, times the Sun's length.
        let along = depth as f64 / sun_length;
        let side = (radius.powi(2) + (depth as f64).powi(2) - along.powi(2)).max(0.0).sqrt();
        // A direction across the Sun's: their cross product with a random one, at length 1.
        let other = [0; 3].map(|_| random.between(-1_000, 1_000) as f64 + 0.5);
        let across = [
            unit[1] * other[2] - unit[2] * other[1],
            unit[2] * other[0] - unit[0] * other[2],
            unit[0] * other[1] - unit[1] * other[0],
        ];
        let scale = side / length(across);
        let [x, y, z] = [0, 1, 2].map(|i| (across[i] * scale - unit[i] * along) as i64);
        Position { x, y, z }
    };
    let positions = [(); 8].map(|()| position());
    positions.into_iter().min_by_key(|&position| miss(edge, position, sun)).expect("some")
}

/// As deep as refusal 14 allows in this direction, and at times on the Sun's side of the Earth.
fn any_depth(random: &mut Random, sun: Direction) -> i64 {
    let components = [sun.x, sun.y, sun.z].map(|component| component as f64);
    let largest = components.into_iter().fold(0.0, |most: f64, it| most.max(it.abs()));
    let deepest = (FARTHEST as f64 / largest * length(components)) as i64;
    random.between(-deepest / 8, deepest)
}

/// The depth at which the edge is as far from the Earth's centre as a satellite that is labelled.
fn orbital_depth(random: &mut Random, edge: Edge) -> i64 {
    let farthest = 190_000_000 >> random.below(5);
    let distance = random.between(6_478_000, farthest);
    (0..4).fold(0, |depth, _| (distance * distance - edge(depth) * edge(depth)).max(0).isqrt())
}

fn position_and_sun(random: &mut Random) -> (Position, Direction) {
    match random.below(8) {
        0 => {
            let [x, y, z] = [0; 3].map(|_| component(random, FARTHEST));
            let [sun_x, sun_y, sun_z] = [0; 3].map(|_| component(random, ONE));
            (Position { x, y, z }, Direction { x: sun_x, y: sun_y, z: sun_z })
        }
        1 => {
            let [x, y, z] = [0; 3].map(|_| random.between(-45_000_000, 45_000_000));
            (Position { x, y, z }, some_sun(random))
        }
        2 => {
            // A Sun of any length: the edge is where a shorter one leaves it, if anywhere.
            let [x, y, z] = [0; 3].map(|_| random.between(-ONE, ONE));
            let (edge, sun) = (edge(random), Direction { x, y, z });
            let depth = any_depth(random, sun) >> random.below(8);
            (near_the_edge(random, edge, sun, depth), sun)
        }
        3 | 4 => {
            let (edge, sun) = (edge(random), some_sun(random));
            let depth = any_depth(random, sun);
            (near_the_edge(random, edge, sun, depth), sun)
        }
        5 => {
            let (edge, sun) = (edge(random), some_sun(random));
            let depth = orbital_depth(random, edge);
            (near_the_edge(random, edge, sun, depth), sun)
        }
        _ => along_an_axis(random),
    }
}

pub fn shade(random: &mut Random, report: &mut Report) {
    let (position, sun) = position_and_sun(random);
    let library = yurdelmiz::shade(
        yurdelmiz::Position { x: position.x, y: position.y, z: position.z },
        yurdelmiz::Direction { x: sun.x, y: sun.y, z: sun.z },
    )
    .map(|shade| shade.to_byte())
    .map_err(|refusal| (refusal.number(), 0));
    let reference = reference::eclipse::shade(position, sun)
        .map(|shade| shade as u8)
        .map_err(|refusal| (refusal.number(), 0));
    report.outcomes(&(position, sun), library, reference);
}
