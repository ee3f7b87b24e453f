//! Scales and their ticks.

use crate::date::{Civil, MONTHS};

/// Values from `low` to `high` over lengths from `start` to `end`.
#[derive(Clone, Copy)]
pub struct Scale {
    pub low: f64,
    pub high: f64,
    pub start: f64,
    pub end: f64,
}

impl Scale {
    pub fn at(&self, value: f64) -> f64 {
        self.start + (value - self.low) / (self.high - self.low) * (self.end - self.start)
    }
}

/// The least and the greatest of some values and zero, with room around them.
pub fn padded(values: impl Iterator<Item = f64>, least_span: f64) -> (f64, f64) {
    let (low, high) = values.fold((0.0f64, 0.0f64), |(low, high), it| (low.min(it), high.max(it)));
    let room = ((high - low) * 0.08).max((least_span - (high - low)) / 2.0);
    (low - room, high + room)
}

pub struct ValueTick {
    pub value: f64,
    pub text: String,
}

/// The round step (1, 2 or 5 times a power of ten) that makes about `wanted` ticks.
fn step_near(span: f64, wanted: f64) -> f64 {
    let power = 10f64.powf((span / wanted).log10().floor());
    let steps = [1.0, 2.0, 5.0, 10.0].map(|factor| factor * power);
    steps.into_iter().find(|step| step * wanted >= span * 0.999).unwrap_or(10.0 * power)
}

pub fn value_ticks(low: f64, high: f64, wanted: f64) -> Vec<ValueTick> {
    let step = step_near(high - low, wanted);
    let (first, last) = ((low / step - 1e-9).ceil() as i64, (high / step + 1e-9).floor() as i64);
    (first..=last)
        .map(|index| {
            let value = index as f64 * step;
            ValueTick { value, text: tick_text(value, step) }
        })
        .collect()
}

/// As many places as the step has; a power of ten where that would be long.
fn tick_text(value: f64, step: f64) -> String {
    let text = if value != 0.0 && !(1e-4..1e5).contains(&step) {
        compact(value)
    } else {
        let places = (-(step.log10() + 1e-9).floor()).max(0.0) as usize;
        format!("{value:.places$}")
    };
    text.replace('-', "\u{2212}")
}

/// Three digits and a power of ten.
pub fn compact(value: f64) -> String {
    let text = format!("{value:.2e}");
    let (digits, power) = text.split_once('e').unwrap_or((&text, "0"));
    let digits = digits.trim_end_matches('0').trim_end_matches('.');
    format!("{digits}e{power}")
}

pub struct TimeTick {
    pub time: i64,
    pub text: String,
    /// Whether a day begins.
    pub midnight: bool,
}

/// Ticks at whole minutes, hours or days.
pub fn time_ticks(low: f64, high: f64) -> Vec<TimeTick> {
    const STEPS: [i64; 14] =
        [1, 2, 5, 10, 30, 60, 300, 900, 1_800, 3_600, 7_200, 10_800, 21_600, 43_200];
    const DAY: i64 = 86_400;
    let least = (high - low) / 14.0;
    let days = (least / DAY as f64).ceil() as i64 * DAY;
    let step = STEPS.into_iter().find(|step| *step as f64 >= least).unwrap_or(days);
    let (first, last) = ((low / step as f64).ceil() as i64, (high / step as f64).floor() as i64);
    (first..=last)
        .map(|index| {
            let time = index * step;
            let civil = Civil::of(time);
            let midnight = time.rem_euclid(DAY) == 0;
            let clock = civil.clock();
            let text = if midnight {
                format!("{} {}", civil.day, MONTHS[civil.month as usize - 1])
            } else if step < 60 {
                clock
            } else {
                clock[..5].to_owned()
            };
            TimeTick { time, text, midnight }
        })
        .collect()
}

#[cfg(test)]
mod tests {
    use super::*;

    fn texts(low: f64, high: f64) -> Vec<String> {
        value_ticks(low, high, 5.0).into_iter().map(|tick| tick.text).collect()
    }

    #[test]
    fn round_values() {
        assert_eq!(texts(-8.7, 0.7), ["−8", "−6", "−4", "−2", "0"]);
        assert_eq!(texts(0.0, 0.25), ["0.00", "0.05", "0.10", "0.15", "0.20", "0.25"]);
        assert_eq!(texts(0.0, 1.1e30), ["0", "5e29", "1e30"]);
        assert_eq!(texts(0.0, 6.8e38).last().unwrap(), "6e38");
        assert_eq!(compact(-1.5e6), "-1.5e6");
    }

    #[test]
    fn ticks_are_within() {
        for (low, high) in [(-50.0, 10.0), (0.0, 100.0), (-1e9, -1e9 + 86_400.0), (0.0, 1e8)] {
            let ticks = time_ticks(low, high);
            assert!(!ticks.is_empty() && ticks.len() < 20, "{} ticks", ticks.len());
            assert!(ticks.iter().all(|tick| (low..=high).contains(&(tick.time as f64))));
        }
    }

    #[test]
    fn a_flat_line_has_room() {
        assert_eq!(padded([0.0].into_iter(), 2.0), (-1.0, 1.0));
        assert_eq!(padded([].into_iter(), 2.0), (-1.0, 1.0));
        let (low, high) = padded([-10.0, 90.0].into_iter(), 2.0);
        assert!(low < -10.0 && high > 90.0);
    }
}
