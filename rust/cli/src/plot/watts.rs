//! The scale of the watts. A few readings far outside the rest would press the rest into a line: they are left
//! out of the scale, and drawn as arrows at its edge.

use super::axis::padded;

/// The least span of the scale, in watts.
const LEAST_SPAN: f64 = 2.0;

/// The rest is pressed flat where it fills less than one part in this many.
const FLAT: f64 = 20.0;

/// The span of values in rising order, with zero.
fn span(values: &[f64]) -> f64 {
    match (values.first(), values.last()) {
        (Some(first), Some(last)) => (last.max(0.0) - first.min(0.0)).max(LEAST_SPAN),
        _ => LEAST_SPAN,
    }
}

/// The least and the greatest watts of the scale, with room around what it shows.
pub fn range(values: &[f64]) -> (f64, f64) {
    let mut values = values.to_vec();
    values.sort_by(f64::total_cmp);
    // Of three readings one can be far outside; of many, one in twenty.
    let few = if values.len() < 3 { 0 } else { (values.len() / 20).max(1) };
    let windows = (0..=few).map(|below| &values[below..values.len() - (few - below)]);
    let rest = windows.min_by(|one, other| span(one).total_cmp(&span(other))).unwrap_or(&values);
    let near = span(rest);
    if span(&values) <= FLAT * near {
        return padded(values.iter().copied(), LEAST_SPAN);
    }
    let low = rest.first().copied().unwrap_or(0.0).min(0.0) - near;
    let high = rest.last().copied().unwrap_or(0.0).max(0.0) + near;
    padded(values.iter().copied().filter(|value| (low..=high).contains(value)), LEAST_SPAN)
}

#[cfg(test)]
mod tests {
    use super::*;

    /// Whether the values that are shown fill a good part of the scale.
    fn shows(values: &[f64], shown: usize) {
        let (low, high) = range(values);
        let within = values.iter().filter(|value| (low..=high).contains(*value)).count();
        assert_eq!(within, shown, "{low} to {high}");
    }

    #[test]
    fn outliers_do_not_flatten() {
        let mut day: Vec<f64> = (0..960).map(|record| f64::from(record % 13)).collect();
        shows(&day, 960);
        for (at, watts) in [(0, 1e30), (1, -1e30), (2, 5_000.0), (3, f64::from(f32::MAX))] {
            day[at] = watts;
        }
        shows(&day, 956);
        let (low, high) = range(&day);
        assert!(low > -3.0 && high < 16.0, "{low} to {high}");
        shows(&[1.0, 2.0, 1e30], 2);
    }

    /// An eclipse is no outlier, nor is any value of a few.
    #[test]
    fn what_belongs_to_the_day_is_shown() {
        let day: Vec<f64> = (0..960).map(|it| if it < 60 { -22.0 } else { 0.1 }).collect();
        shows(&day, 960);
        shows(&[5.0, 1e30], 2);
        shows(&[1e30], 1);
        shows(&[], 0);
        shows(&[-22.0, 1.0, 1.0], 3);
    }
}
