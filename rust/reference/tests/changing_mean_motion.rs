//! A mean motion that changes, beyond what the vectors hold: its refusals at their limits, and sums
//! worked out by hand.

use reference::orbit::Elements;
use reference::Refusal;

/// One revolution a day, from the node.
const ELEMENTS: Elements = Elements {
    eccentricity: 0,
    semi_major_axis: 42_241_000,
    inclination: 1 << 30,
    node: 0,
    argument_of_perigee: 0,
    mean_anomaly: 0,
    mean_motion: 100_000_000,
    node_rate: 0,
    perigee_rate: 0,
    epoch_revolution: 60,
    epoch: 0,
    half_mean_motion_derivative: 0,
};

fn changing(half_mean_motion_derivative: i32) -> Elements {
    Elements { half_mean_motion_derivative, ..ELEMENTS }
}

#[test]
fn limits_of_refusal_16() {
    let refused = Err(Refusal::MeanMotionDerivative);
    for way in [-1, 1] {
        assert_eq!(changing(way * 1_000_000).check(), Ok(()));
        assert_eq!(changing(way * 1_000_001).check(), refused);
        let slow = |mean_motion| Elements { mean_motion, ..changing(way * 1_000_000) };
        assert_eq!(slow(80_000_000).check(), Ok(()));
        assert_eq!(slow(79_999_999).check(), refused);
    }
    for far in [i32::MIN, i32::MAX] {
        assert_eq!(changing(far).check(), refused);
    }
    assert_eq!(Elements { mean_motion: 20_000_000, ..ELEMENTS }.check(), Ok(()));
    assert_eq!(Elements { mean_motion: 20_000_000, ..changing(-1) }.check(), refused);
}

/// After 7 and before the epoch.
#[test]
fn order_of_refusal_16() {
    let late = Elements { epoch: i64::MAX, ..changing(i32::MIN) };
    assert_eq!(late.check(), Err(Refusal::MeanMotionDerivative));
    let high = Elements { epoch_revolution: 100_000, ..late };
    assert_eq!(high.check(), Err(Refusal::EpochRevolution));
    let low = Elements { half_mean_motion_derivative: 1, ..late };
    assert_eq!(low.check(), Err(Refusal::Time));
}

#[test]
fn times_within_reach() {
    for (half_derivative, reach) in [(0, 31_622_400), (1, 2_592_000), (-1, 2_592_000)] {
        for way in [-1, 1] {
            let state = |apart: i64| changing(half_derivative).state(way * apart);
            assert!(state(reach).is_ok());
            assert_eq!(state(reach + 1), Err(Refusal::Time));
        }
    }
}

/// 0.01 revolutions a day squared make one revolution in ten days, and nine in thirty.
#[test]
fn whole_revolutions() {
    for (days, gained) in [(10, 1), (-10, 1), (30, 9), (-30, 9)] {
        for way in [-1, 0, 1] {
            let state = changing(way * 1_000_000).state(i64::from(days) * 86_400).unwrap();
            assert_eq!(state.anomaly.angle, 0);
            assert_eq!(state.revolution, 60 + days + way * gained);
        }
    }
}

/// Down, and not toward zero: the least change takes a unit off at once.
#[test]
fn a_change_is_cut_down() {
    for (half_derivative, cut) in [(1, 0), (-1, 1)] {
        for time in [-1, 1] {
            let angle = |elements: Elements| elements.state(time).unwrap().anomaly.angle;
            assert_eq!(angle(changing(half_derivative)), angle(ELEMENTS) - cut);
        }
    }
}
