//! Kepler's third law, by which mean motion and semi-major axis tell each other. No rule is made of it: where
//! they disagree the user is warned, for that is how a lost decimal point looks.

use std::f64::consts::TAU;

use crate::decimal::grouped;

/// The Earth's GM, in m³/s².
const GM: f64 = 398_600.441_8e9;

const DAY: f64 = 86_400.0;

/// Revolutions a day at a semi-major axis in metres.
fn mean_motion_at(axis: f64) -> f64 {
    (GM / axis.powi(3)).sqrt() * DAY / TAU
}

/// Metres at a mean motion in revolutions a day.
fn axis_at(mean_motion: f64) -> f64 {
    (GM / (mean_motion * TAU / DAY).powi(2)).cbrt()
}

/// What to say where the mean motion, in 10^-8 revolutions a day, is over 1 percent from what the law gives for the
/// axis, in metres.
pub fn warning(semi_major_axis: i64, mean_motion: i64) -> Option<String> {
    let axis = semi_major_axis as f64;
    let mean_motion = mean_motion as f64 * 1e-8;
    if axis == 0.0 || mean_motion == 0.0 {
        return None;
    }
    let lawful = mean_motion_at(axis);
    if (mean_motion / lawful - 1.0).abs() <= 0.01 {
        return None;
    }
    Some(format!(
        "mean_motion {mean_motion:.8} revolutions a day and semi_major_axis {semi_major_axis} metres disagree \
         with Kepler's third law: for this axis it gives {lawful:.4} revolutions a day, for this mean motion \
         {} km; is a digit lost in one of them, or one too many?",
        grouped((axis_at(mean_motion) / 1_000.0).round() as i128),
    ))
}

#[cfg(test)]
mod tests {
    use super::*;

    /// The geostationary orbit, and Oscar-10.
    #[test]
    fn orbits_that_agree() {
        for (axis, mean_motion) in [(42_164_000, 100_273_790), (26_100_000, 205_890_000)] {
            assert_eq!(warning(axis, mean_motion), None);
        }
    }

    #[test]
    fn the_limit_is_one_percent() {
        let lawful = mean_motion_at(26_100_000.0) * 1e8;
        for (factor, warned) in [(1.0099, false), (1.0101, true), (0.9901, false), (0.9899, true)] {
            let mean_motion = (lawful * factor) as i64;
            assert_eq!(warning(26_100_000, mean_motion).is_some(), warned);
        }
    }

    #[test]
    fn a_lost_digit() {
        let told = warning(26_100_000, 20_589_000).unwrap();
        for part in ["0.20589000 revolutions", "26100000 metres", "gives 2.0589 rev", "121,1"] {
            assert!(told.contains(part), "{part} in {told}");
        }
        assert_eq!(warning(0, 205_890_000), None);
        assert_eq!(warning(26_100_000, 0), None);
        let greatest = i64::from(u32::MAX);
        assert!(warning(greatest, greatest).is_some());
    }
}
