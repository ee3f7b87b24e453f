//! The picture: watts above, the Sun's elevation below, umbra and penumbra behind both, revolutions on top.

use yurdelmiz::{Label, Reading};

use super::axis::{padded, time_ticks, value_ticks, Scale};
use super::cover::{cells, runs, usual_step, Cell};
use super::style::{
    colour, Panel, BANDS, HEIGHT, INK, LEFT, LOWER, MARGIN, MISSING, QUIET, RIGHT, SATURATED,
    SIDES, UPPER, WIDTH,
};
use super::svg::{Drawing, Font};
use super::{axis, watts};
use crate::date::Civil;
use crate::decimal::shortest;

/// What the title names.
pub struct Names {
    pub file: String,
    pub satellite: Option<String>,
}

const PANELS: [Panel; 2] = [UPPER, LOWER];

/// Through which a band is seen, and which is seen on it.
const GRID: &str = "stroke=\"#22262b\" stroke-opacity=\"0.11\"";
const MIDNIGHT: &str = "stroke=\"#22262b\" stroke-opacity=\"0.25\"";
const ZERO: &str = "stroke=\"#6b7280\"";
const AXIS: &str = "stroke=\"#22262b\"";
const NODE_PASSAGE: &str = "stroke=\"#6b7280\" stroke-dasharray=\"3 3\"";

const MIDDLE: Font = Font { anchor: "middle", ..Font::PLAIN };
const AT_END: Font = Font { anchor: "end", ..Font::PLAIN };
const SMALL_QUIET: Font = Font { colour: QUIET, ..Font::PLAIN };

pub fn draw(names: &Names, labels: &[Label]) -> String {
    let mut labels = labels.to_vec();
    labels.sort_by_key(|label| label.time);
    let (title, subtitle) = titles(names, &labels);
    let mut drawing = Drawing::new(&format!("{title}, {subtitle}"));
    draw_titles(&mut drawing, &title, &subtitle);
    match Day::of(&labels) {
        Some(day) => day.draw(&mut drawing),
        None => {
            let font = Font { size: 18.0, colour: QUIET, ..MIDDLE };
            drawing.text(
                WIDTH / 2.0,
                HEIGHT / 2.0,
                "The day is empty: the file has no labels.",
                font,
            );
        }
    }
    drawing.finish()
}

/// At most so many characters.
fn cut(text: &str, most: usize) -> String {
    match text.char_indices().nth(most) {
        Some((at, _)) => format!("{}\u{2026}", &text[..at]),
        None => text.to_owned(),
    }
}

fn titles(names: &Names, labels: &[Label]) -> (String, String) {
    let title = match &names.satellite {
        Some(satellite) => format!("{}: battery power and sunlight", cut(satellite, 40)),
        None => "Battery power and sunlight".to_owned(),
    };
    let file = cut(&names.file, 60);
    let subtitle = match labels {
        [] => format!("{file}, no labels"),
        [first, .., last] => format!(
            "{file}, {} to {} UTC, {} labels",
            minute(first.time),
            minute(last.time),
            labels.len()
        ),
        [one] => format!("{file}, {} UTC, 1 label", minute(one.time)),
    };
    (title, subtitle)
}

fn minute(time: i64) -> String {
    let civil = Civil::of(time);
    format!("{} {}", civil.date(), &civil.clock()[..5])
}

/// On one line where there is room, and else on two.
fn draw_titles(drawing: &mut Drawing, title: &str, subtitle: &str) {
    let bold = Font { size: 22.0, bold: true, ..Font::PLAIN };
    if bold.width(title) + SMALL_QUIET.width(subtitle) + 24.0 < RIGHT - LEFT {
        drawing.text(LEFT, 40.0, title, bold);
        drawing.text(RIGHT, 40.0, subtitle, Font { anchor: "end", ..SMALL_QUIET });
    } else {
        drawing.text(LEFT, 32.0, title, bold);
        drawing.text(LEFT, 52.0, subtitle, SMALL_QUIET);
    }
}

/// Labels in order of time, at least one, with the scales that show them.
struct Day<'a> {
    labels: &'a [Label],
    cells: Vec<Cell>,
    time: Scale,
    watts: Scale,
    elevation: Scale,
}

fn degrees(label: &Label) -> f64 {
    (f64::from(label.elevation) / f64::from(1 << 30)).asin().to_degrees()
}

fn watts_of(label: &Label) -> Option<f64> {
    label.reading.watts().map(f64::from)
}

impl<'a> Day<'a> {
    fn of(labels: &'a [Label]) -> Option<Day<'a>> {
        let times: Vec<i64> = labels.iter().map(|label| label.time).collect();
        let (first, last) = (*times.first()? as f64, *times.last()? as f64);
        // A record at an end is not cut, and one alone does not fill the picture.
        let steps = if first == last { 2.5 } else { 0.5 };
        let room = ((last - first) * 0.008).max(steps * usual_step(&times));
        let all: Vec<f64> = labels.iter().filter_map(watts_of).collect();
        let (low, high) = watts::range(&all);
        let (lowest, highest) = padded(labels.iter().map(degrees), 2.0);
        Some(Day {
            labels,
            cells: cells(&times),
            time: Scale { low: first - room, high: last + room, start: LEFT, end: RIGHT },
            watts: Scale { low, high, start: UPPER.bottom - MARGIN, end: UPPER.top + MARGIN },
            elevation: Scale { low: lowest, high: highest, start: LOWER.bottom, end: LOWER.top },
        })
    }

    fn draw(&self, drawing: &mut Drawing) {
        self.draw_legend(drawing);
        self.draw_shades(drawing);
        self.draw_grid(drawing);
        self.draw_revolutions(drawing);
        self.draw_gaps(drawing);
        self.draw_labels(drawing);
        self.draw_axes(drawing);
    }

    /// A time's place, within the panel.
    fn x(&self, time: f64) -> f64 {
        self.time.at(time).clamp(LEFT, RIGHT)
    }

    fn beyond(&self) -> Vec<(&Label, f64)> {
        let within = self.watts.low..=self.watts.high;
        let all =
            self.labels.iter().filter_map(|label| watts_of(label).map(|watts| (label, watts)));
        all.filter(|(_, watts)| !within.contains(watts)).collect()
    }

    fn draw_legend(&self, drawing: &mut Drawing) {
        let count = |is: &dyn Fn(&Label) -> bool| self.labels.iter().filter(|it| is(it)).count();
        let (mut x, mut y) = (LEFT, 74.0);
        // A mark at what is given back, then its text; the next entry begins behind it, or in a second row.
        let mut entry = |drawing: &mut Drawing, mark: f64, text: String| {
            let width = mark + Font::PLAIN.width(&text);
            if x + width > RIGHT {
                (x, y) = (LEFT, 94.0);
            }
            let start = (x, y);
            drawing.text(x + mark, y, &text, Font::PLAIN);
            x += width + 22.0;
            start
        };
        for side in SIDES {
            let text = format!("{side} ({})", count(&|label| label.side == side));
            let (x, y) = entry(drawing, 17.0, text);
            drawing.dots(&[(x + 6.0, y - 4.0)], colour(side), 5.0);
        }
        for band in BANDS {
            let text = format!("{} ({})", band.name, count(&|label| label.shade == band.shade));
            let (x, y) = entry(drawing, 29.0, text);
            drawing.rect(x, y - 12.0, 22.0, 15.0, band.fill);
        }
        let missing = count(&|label| label.reading == Reading::Missing);
        let (x, y) = entry(drawing, 17.0, format!("missing ({missing})"));
        drawing.cross(x + 6.0, y - 4.0, MISSING);
        let saturated = count(&|label| label.reading == Reading::Saturated);
        let (x, y) = entry(drawing, 17.0, format!("saturated ({saturated})"));
        drawing.triangle(x + 6.0, y - 4.0, SATURATED);
        let beyond: Vec<f64> = self.beyond().into_iter().map(|(_, watts)| watts).collect();
        if let Some(range) = watts_range(&beyond) {
            let text = format!("beyond the scale ({}): {range}", beyond.len());
            let (x, y) = entry(drawing, 17.0, text);
            drawing.arrow(x + 6.0, y - 10.0, true, INK);
        }
    }

    fn draw_shades(&self, drawing: &mut Drawing) {
        for run in runs(&self.cells, self.labels.iter().map(|label| label.shade)) {
            if let Some(band) = BANDS.iter().find(|band| band.shade == run.key) {
                let (left, right) = (self.x(run.from), self.x(run.to));
                for panel in PANELS {
                    let height = panel.bottom - panel.top;
                    drawing.rect(left, panel.top, (right - left).max(1.0), height, band.fill);
                }
            }
        }
    }

    fn draw_grid(&self, drawing: &mut Drawing) {
        for (scale, wanted) in [(self.watts, 7.0), (self.elevation, 5.0)] {
            for tick in value_ticks(scale.low, scale.high, wanted) {
                let y = scale.at(tick.value);
                let stroke = if tick.value == 0.0 { ZERO } else { GRID };
                drawing.line((LEFT, y), (RIGHT, y), stroke);
                drawing.text(LEFT - 9.0, y + 4.5, &tick.text, AT_END);
            }
        }
        for tick in time_ticks(self.time.low, self.time.high) {
            let x = self.x(tick.time as f64);
            let stroke = if tick.midnight { MIDNIGHT } else { GRID };
            for panel in PANELS {
                drawing.line((x, panel.top), (x, panel.bottom), stroke);
            }
            drawing.line((x, LOWER.bottom), (x, LOWER.bottom + 6.0), AXIS);
            let font = Font { bold: tick.midnight, ..MIDDLE };
            // The last text stays inside the picture, whatever its tick.
            let inside = WIDTH - 6.0 - font.width(&tick.text) / 2.0;
            drawing.text(x.min(inside), LOWER.bottom + 22.0, &tick.text, font);
        }
    }

    /// Above the upper panel, in the colour of their side.
    fn draw_revolutions(&self, drawing: &mut Drawing) {
        let keys = self.labels.iter().map(|label| (label.revolution, label.side));
        for run in runs(&self.cells, keys) {
            let (revolution, side) = run.key;
            let (left, right) = (self.x(run.from), self.x(run.to));
            let width = right - left;
            drawing.rect(left, UPPER.top - 7.0, (width - 1.0).max(1.5), 5.0, colour(side));
            if run.meets && width > 20.0 {
                drawing.line((left, UPPER.top - 7.0), (left, UPPER.bottom), NODE_PASSAGE);
                drawing.line((left, LOWER.top), (left, LOWER.bottom), NODE_PASSAGE);
            }
            let font = Font { size: 12.0, colour: colour(side), ..MIDDLE };
            let texts = [format!("revolution {revolution}"), revolution.to_string()];
            if let Some(text) = texts.iter().find(|text| font.width(text) < width) {
                drawing.text((left + right) / 2.0, UPPER.top - 13.0, text, font);
            }
        }
    }

    fn draw_gaps(&self, drawing: &mut Drawing) {
        let font = Font { colour: QUIET, ..MIDDLE };
        let text = "no records";
        for pair in runs(&self.cells, self.labels.iter().map(|_| ())).windows(2) {
            let (left, right) = (self.x(pair[0].to), self.x(pair[1].from));
            if right - left > (RIGHT - LEFT) / 6.0 {
                let (x, y) = ((left + right) / 2.0, (UPPER.top + UPPER.bottom) / 2.0);
                let width = font.width(text) + 8.0;
                drawing.rect(x - width / 2.0, y - 14.0, width, 20.0, "#ffffff");
                drawing.text(x, y, text, font);
            }
        }
    }

    fn draw_labels(&self, drawing: &mut Drawing) {
        let within = self.watts.low..=self.watts.high;
        let few = self.labels.len() < 100;
        for side in SIDES {
            let labels = || self.labels.iter().filter(|label| label.side == side);
            let readings = labels().filter_map(|label| watts_of(label).map(|it| (label.time, it)));
            let shown = readings.filter(|(_, watts)| within.contains(watts));
            let dots: Vec<_> =
                shown.map(|(time, watts)| (self.x(time as f64), self.watts.at(watts))).collect();
            drawing.dots(&dots, colour(side), if few { 3.0 } else { 2.1 });
            let dots: Vec<_> = labels()
                .map(|label| (self.x(label.time as f64), self.elevation.at(degrees(label))))
                .collect();
            drawing.dots(&dots, colour(side), if few { 2.2 } else { 1.6 });
        }
        for label in self.labels {
            let x = self.x(label.time as f64);
            match label.reading {
                Reading::Missing => drawing.cross(x, UPPER.bottom - 10.0, MISSING),
                Reading::Saturated => drawing.triangle(x, UPPER.top + 10.0, SATURATED),
                Reading::Valid(_) => {}
            }
        }
        for (label, watts) in self.beyond() {
            let up = watts > 0.0;
            let y = if up { self.watts.end - 2.0 } else { self.watts.start + 2.0 };
            drawing.arrow(self.x(label.time as f64), y, up, colour(label.side));
        }
    }

    fn draw_axes(&self, drawing: &mut Drawing) {
        let font = Font { size: 14.0, ..MIDDLE };
        for (panel, text) in [(UPPER, "battery power (W)"), (LOWER, "Sun elevation (°)")] {
            drawing.line((LEFT, panel.top), (LEFT, panel.bottom), AXIS);
            drawing.line((LEFT, panel.bottom), (RIGHT, panel.bottom), AXIS);
            drawing.upright_text(20.0, (panel.top + panel.bottom) / 2.0, text, font);
        }
        let text = "Elevation of the Sun above the orbit plane";
        drawing.text(LEFT, LOWER.top - 10.0, text, SMALL_QUIET);
        drawing.text((LEFT + RIGHT) / 2.0, HEIGHT - 18.0, "time (UTC)", font);
    }
}

/// `1e30 W`, or `-5e9 to 1e30 W`.
fn watts_range(watts: &[f64]) -> Option<String> {
    // Three digits and a power of ten, unless the number itself is as short.
    let shown = |watts: f64| {
        let (exact, compact) = (shortest(watts as f32), axis::compact(watts));
        let text = if exact.len() <= compact.len() { exact } else { compact };
        text.replace('-', "\u{2212}")
    };
    let least = watts.iter().copied().min_by(f64::total_cmp)?;
    let greatest = watts.iter().copied().max_by(f64::total_cmp)?;
    Some(if least == greatest {
        format!("{} W", shown(least))
    } else {
        format!("{} to {} W", shown(least), shown(greatest))
    })
}

#[cfg(test)]
mod tests {
    use super::*;
    use yurdelmiz::Shade;

    /// Sunlight is the white of the panel; every other shade has its band.
    #[test]
    fn every_shade_is_drawn() {
        for shade in Shade::ALL {
            let bands = BANDS.iter().filter(|band| band.shade == shade).count();
            assert_eq!(bands, usize::from(shade != Shade::Lit));
        }
    }

    /// The umbra is darker than the penumbra, and that than the panel.
    #[test]
    fn fills_are_told_apart() {
        let names = BANDS.map(|band| band.name);
        assert_eq!(names, ["umbra", "penumbra"]);
        let fills = BANDS.map(|band| band.fill).into_iter().chain(["#ffffff"]);
        let greens: Vec<u8> =
            fills.map(|fill| u8::from_str_radix(&fill[3..5], 16).unwrap()).collect();
        assert!(greens.windows(2).all(|pair| pair[0] + 15 < pair[1]), "{greens:?}");
    }
}
