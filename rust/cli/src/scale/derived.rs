//! What is computed from scale figures, and rounded. Sines are whole numbers here too, so that every machine prints the
//! same.

use yurdelmiz::Figures;

use crate::decimal::{fixed, shortest_64};

/// Decimals of the mean: the unit of a sine, 2^-30, is about the last.
const MEAN_PLACES: u32 = 9;

/// The most decimals of the deviation.
const DEVIATION_PLACES: u32 = 4;

/// Decimals of a deviation of so many 10^-4 or more. Cutting the squares makes the mean square too small by less than
/// 2^-14, and so the deviation by less than 2^-15 over itself, and by less than 2^-7: by less than one in the last
/// decimal.
const PLACES_FROM: [(i64, u32); 3] = [(3_100, DEVIATION_PLACES), (310, 3), (0, 2)];

/// The mean of the sines, where there is a label.
pub fn mean_sine(figures: &Figures) -> Option<String> {
    let unit = unit(figures)?;
    let sines = i128::from(figures.sines) * 10_i128.pow(MEAN_PLACES);
    Some(fixed(quotient(sines, unit), MEAN_PLACES))
}

/// The standard deviation of the sines, that of the population: the root of the mean square less the square of the
/// mean, and 0 where that is below 0, for the squares are cut.
pub fn deviation_sine(figures: &Figures) -> Option<String> {
    let unit = unit(figures)?;
    // In units of 1 / unit², and at most that many of them.
    let variance = i128::from(figures.squares) * unit - i128::from(figures.sines).pow(2);
    let rounded = |places: u32| {
        // The root may be cut: as half the unit is whole, the quotient is rounded as that of the root itself.
        let root = (variance.max(0) * 10_i128.pow(2 * places)).isqrt();
        quotient(root, unit)
    };
    let most = rounded(DEVIATION_PLACES);
    let (_, places) = PLACES_FROM.into_iter().find(|(from, _)| most >= *from)?;
    Some(fixed(rounded(places), places))
}

/// The greatest watts less the least, where a reading is valid: a binary64, rounded to the nearest.
pub fn range_watts(figures: &Figures) -> Option<String> {
    let (least, greatest) = (figures.least?, figures.greatest?);
    Some(shortest_64(f64::from(greatest) - f64::from(least)))
}

/// The parts of one in a mean over all labels, 2^30 for each, where there is one.
fn unit(figures: &Figures) -> Option<i128> {
    (figures.labels > 0).then_some(i128::from(figures.labels) << 30)
}

/// Rounded, a half away from zero. The unit is even.
fn quotient(number: i128, unit: i128) -> i64 {
    let size = (number.abs() + unit / 2) / unit;
    (size * number.signum()) as i64
}

#[cfg(test)]
mod tests {
    use super::*;

    /// The figures of sines, with the squares that the rules give.
    fn of(sines: &[i64]) -> Figures {
        Figures {
            files: 1_000,
            labels: sines.len() as u32,
            sines: sines.iter().sum(),
            squares: sines.iter().map(|sine| (sine.unsigned_abs() / 32_768).pow(2)).sum(),
            ..Figures::default()
        }
    }

    #[track_caller]
    fn mean_and_deviation(figures: &Figures, mean: &str, deviation: &str) {
        let found = [mean_sine(figures), deviation_sine(figures)];
        assert_eq!(found, [mean, deviation].map(|text| Some(text.to_owned())));
    }

    const ONE: i64 = 1 << 30;

    #[test]
    fn means_and_deviations() {
        mean_and_deviation(&of(&[0]), "0.000000000", "0.00");
        mean_and_deviation(&of(&[ONE]), "1.000000000", "0.00");
        mean_and_deviation(&of(&[-ONE]), "-1.000000000", "0.00");
        mean_and_deviation(&of(&[ONE, -ONE]), "0.000000000", "1.0000");
        mean_and_deviation(&of(&[ONE, 0]), "0.500000000", "0.5000");
        mean_and_deviation(&of(&[ONE / 2, ONE / 4]), "0.375000000", "0.125");
        mean_and_deviation(&of(&[ONE, ONE, -ONE]), "0.333333333", "0.9428");
        mean_and_deviation(&of(&[-ONE, -ONE, ONE]), "-0.333333333", "0.9428");
        // A unit is 0.93 of the last decimal, and a third of it rounds to none, without a sign.
        mean_and_deviation(&of(&[1]), "0.000000001", "0.00");
        mean_and_deviation(&of(&[-1]), "-0.000000001", "0.00");
        mean_and_deviation(&of(&[-1, 0, 0]), "0.000000000", "0.00");
    }

    /// The deviation of one sine with a mean square of so many 2^-30, less the square of the mean, which is 0.
    #[track_caller]
    fn deviation_of(squares: u64, deviation: &str) {
        let figures = Figures { labels: 1, squares, ..Figures::default() };
        assert_eq!(deviation_sine(&figures).unwrap(), deviation);
    }

    /// Exactly between two decimals: away from zero.
    #[test]
    fn halves() {
        let unit = 1 << 30;
        for (number, rounded) in [(unit / 2 - 1, 0), (unit / 2, 1), (3 * unit / 2, 2), (unit, 1)] {
            assert_eq!(quotient(number, unit), rounded);
            assert_eq!(quotient(-number, unit), -rounded);
        }
        // 2^-10, which is 0.0009765625, has a half behind its ninth decimal.
        let figures = Figures { labels: 1, sines: ONE >> 10, ..Figures::default() };
        assert_eq!(mean_sine(&figures).unwrap(), "0.000976563");
        let figures = Figures { sines: -(ONE >> 10), ..figures };
        assert_eq!(mean_sine(&figures).unwrap(), "-0.000976563");
        // 0.40625 has a half behind its fourth, and 0.0625 behind its third.
        deviation_of(169 << 20, "0.4063");
        deviation_of((169 << 20) - 1, "0.4062");
        deviation_of(1 << 22, "0.063");
        deviation_of((1 << 22) - 1, "0.062");
    }

    /// The decimals that mean something, on both sides of where there is one more: 0.30995 and 0.03095.
    #[test]
    fn decimals_of_the_deviation() {
        let squares = |deviation: f64| (deviation * deviation * f64::from(1 << 30)) as u64;
        deviation_of(squares(0.30996), "0.3100");
        deviation_of(squares(0.30994), "0.310");
        deviation_of(squares(0.03096), "0.031");
        deviation_of(squares(0.03094), "0.03");
        deviation_of(1, "0.00");
    }

    /// The deviation that is shown is that of the sines themselves or one less in its last decimal.
    #[test]
    fn cut_squares_and_the_deviation() {
        let mut number: u32 = 1;
        let mut next = || {
            number = number.wrapping_mul(1_664_525).wrapping_add(1_013_904_223);
            number
        };
        let mut less = 0;
        for _ in 0..2_000 {
            let (middle, width) = (i64::from(next() >> 2), i64::from(next() >> (2 + next() % 20)));
            let sines: Vec<i64> = (0..8)
                .map(|_| (middle + i64::from(next()) * width / (1 << 32)).clamp(-ONE, ONE))
                .collect();
            let mean = sines.iter().sum::<i64>() as f64 / 8.0;
            let square = |sine: &i64| (*sine as f64 - mean).powi(2);
            let exact = (sines.iter().map(square).sum::<f64>() / 8.0).sqrt() / ONE as f64;
            let shown = deviation_sine(&of(&sines)).unwrap();
            let (_, decimals) = shown.split_once('.').unwrap();
            let last = 10_f64.powi(-(decimals.len() as i32));
            let by = exact - shown.parse::<f64>().unwrap();
            assert!(by > -0.5001 * last && by < 1.5001 * last, "{shown} for {exact}");
            less += u32::from(by > 0.5 * last);
        }
        assert!(less > 0, "some are one less");
    }

    /// Equal sines, whose squares are cut, so that the mean square is below the square of the mean.
    #[test]
    fn cut_squares() {
        let figures = of(&[ONE - 1; 100]);
        assert!(i128::from(figures.squares) * (100 << 30) < i128::from(figures.sines).pow(2));
        mean_and_deviation(&figures, "0.999999999", "0.00");
    }

    /// As many labels as files can have, at the ends of what their totals can be.
    #[test]
    fn the_most_labels() {
        let most = 1_024_000;
        let figures = Figures {
            labels: most,
            sines: -i64::from(most) * ONE,
            squares: u64::from(most) << 30,
            ..Figures::default()
        };
        mean_and_deviation(&figures, "-1.000000000", "0.00");
        mean_and_deviation(&Figures { sines: 0, ..figures }, "0.000000000", "1.0000");
        mean_and_deviation(&Figures { squares: 0, ..figures }, "-1.000000000", "0.00");
    }

    #[test]
    fn none() {
        let nothing = Figures::default();
        assert_eq!(
            [mean_sine(&nothing), deviation_sine(&nothing), range_watts(&nothing)],
            [(); 3].map(|()| None)
        );
    }

    #[test]
    fn ranges() {
        for (least, greatest, range) in [
            (1.0, 1.0, "0"),
            (-0.0, -0.0, "0"),
            (-1.5, 2.25, "3.75"),
            (0.0, 0.1, "0.10000000149011612"),
            (f32::MIN, f32::MAX, "6.805646932770577e38"),
            (-f32::from_bits(1), f32::from_bits(1), "2.802596928649634e-45"),
            // Too far apart for a binary64: the nearest.
            (-f32::from_bits(1), 1.0, "1"),
        ] {
            let figures = Figures {
                valid: 1,
                least: Some(least),
                greatest: Some(greatest),
                ..Figures::default()
            };
            assert_eq!(range_watts(&figures).unwrap(), range);
        }
    }
}
