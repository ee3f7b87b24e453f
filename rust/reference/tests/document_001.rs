//! The worked examples of source document 001, and the rows marked P of document 01.

use reference::eclipse::{elevation_sine, shade, Shade};
use reference::kepler;
use reference::label::Side;
use reference::orbit::{Elements, Position};
use reference::sine::{angle, sine, Angle};
use reference::sun::{sun, Direction};
use reference::Refusal;

/// 1985 August 12, 01:45.
const EXAMPLE_TIME: i64 = -138_406_500;

fn degrees(angle: Angle) -> f64 {
    f64::from(angle) * 360.0 / 4_294_967_296.0
}

fn units(sine: i64) -> f64 {
    sine as f64 / f64::from(1 << 30)
}

#[track_caller]
fn assert_near(found: f64, expected: f64, within: f64) {
    assert!((found - expected).abs() <= within, "{found} is not within {within} of {expected}");
}

fn oscar_10() -> Elements {
    Elements {
        eccentricity: 6_100_000,
        semi_major_axis: 26_100_000,
        inclination: angle(256_000),
        node: angle(1_212_000),
        argument_of_perigee: angle(401_000),
        mean_anomaly: angle(1_293_000),
        mean_motion: 205_890_000,
        node_rate: -1_724,
        perigee_rate: 2_834,
        epoch_revolution: 1_627,
        epoch: EXAMPLE_TIME,
        half_mean_motion_derivative: 0,
    }
}

#[test]
fn part_1_test_data() {
    let sun = sun(EXAMPLE_TIME).unwrap();
    assert_near(degrees(sun.mean_anomaly), 217.7751, 0.0002);
    assert_near(degrees(sun.mean_longitude), 140.4681, 0.0002);
    assert_near(degrees(sun.true_longitude), 139.3144, 0.0002);
    assert_near(degrees(sun.greenwich_hour_angle), 346.7181, 0.0002);

    let Direction { x, y, z } = sun.direction;
    for (found, expected) in [(x, -0.758298), (y, 0.598108), (z, 0.259328)] {
        assert_near(units(found), expected, 0.000_002);
    }
    // The article turns the Sun; a turn does not ask what it turns.
    let greenwich = Position { x, y, z }.earth_fixed(sun.greenwich_hour_angle);
    assert_near(units(greenwich.x), -0.875425, 0.000_002);
    assert_near(units(greenwich.y), 0.407897, 0.000_002);
}

#[test]
fn part_2_elevation() {
    let sun = sun(EXAMPLE_TIME).unwrap().direction;
    let elements = oscar_10();
    let sine = elevation_sine(elements.inclination, elements.node, sun);
    assert_near(units(i64::from(sine)), 0.0874, 0.0002);
}

#[test]
fn part_3_eclipse() {
    let state = oscar_10().state(EXAMPLE_TIME).unwrap();
    let sun = sun(EXAMPLE_TIME).unwrap().direction;
    assert_eq!(shade(state.position, sun), Ok(Shade::Dark));
    assert_near(state.radius as f64, 39_582_000.0, 10_000.0);
    assert_near(degrees(state.anomaly.angle), 147.9, 0.1);
    assert_eq!(state.revolution, 1_627);
    let unit = |metres: i64| metres as f64 / state.radius as f64;
    let Position { x, y, z } = state.position;
    for (found, expected) in [(x, 0.7864), (y, -0.5923), (z, -0.1755)] {
        assert_near(unit(found), expected, 0.001);
    }
}

#[test]
fn rows_marked_p() {
    let sines = [(0, 0), (1, 1), (2, 3), (1 << 30, 1 << 30), (1 << 31, 0), (u32::MAX, -1)];
    for (angle, expected) in sines {
        assert_eq!(sine(angle), expected, "S({angle})");
    }
    let solved = |e, m| kepler::solve(e, m).map(|anomaly| anomaly.angle);
    assert_eq!(solved(9_000_000, 1 << 31), Ok(1 << 31));
    assert_eq!(solved(9_000_000, 0), Ok(0));
    assert_eq!(solved(9_000_001, 0), Err(Refusal::Eccentricity));

    let sun = Direction { x: 1 << 30, y: 0, z: 0 };
    let shade_at = |x, y| shade(Position { x, y, z: 0 }, sun);
    assert_eq!(shade_at(-42_164_000, 6_183_633), Ok(Shade::Dark));
    assert_eq!(shade_at(-42_164_000, 6_183_634), Ok(Shade::Part));
    assert_eq!(shade_at(-42_164_000, 6_575_960), Ok(Shade::Part));
    assert_eq!(shade_at(-42_164_000, 6_575_961), Ok(Shade::Lit));
    assert_eq!(shade_at(42_164_000, 0), Ok(Shade::Lit));

    let sides = [16, 17, 65].map(Side::of_revolution);
    assert_eq!(sides, [Side::Withheld, Side::Training, Side::Test]);
}
