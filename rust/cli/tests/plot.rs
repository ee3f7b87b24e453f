//! `plot`: what is drawn, and where.

mod common;

use common::{label_file, Folder, LABEL, LABELS};
use yurdelmiz::LabelFile;

/// The shades of a label, and the fills of their bands.
const LIT: u8 = 0;
const DARK: u8 = 1;
const PART: u8 = 2;
const UMBRA: &str = "#c3ccda";
const PENUMBRA: &str = "#e0e6ee";

/// A label of the first revolution's training side.
fn label(time: i64, shade: u8, reading: u8, watts: f32) -> [u8; 24] {
    let mut label = LABEL;
    label[..8].copy_from_slice(&time.to_le_bytes());
    label[13] = shade;
    label[14] = reading;
    let bits = if reading == 1 { watts.to_bits() } else { 0 };
    label[20..].copy_from_slice(&bits.to_le_bytes());
    label
}

fn valid(time: i64, watts: f32) -> [u8; 24] {
    label(time, LIT, 1, watts)
}

/// The picture of some labels, as its elements.
struct Picture(Vec<String>);

impl Picture {
    fn of(file: &[u8], words: &[&str]) -> Picture {
        let folder = Folder::new();
        folder.write("day.labels", file);
        let words = [&["plot", "day.labels", "day.svg"], words].concat();
        let count = LabelFile::read(file).unwrap().labels().len();
        folder.run(words).is(0, &format!("drawn {count}\n"));
        assert_eq!(folder.names(), ["day.labels", "day.svg"]);
        let text = String::from_utf8(folder.read("day.svg")).unwrap();
        let picture = Picture(text.lines().map(str::to_owned).collect());
        picture.is_sound();
        picture
    }

    /// Each line is one element, closed; no number is lost, and none is outside the picture.
    fn is_sound(&self) {
        let lines = &self.0;
        assert!(lines[0].starts_with("<svg ") && lines[lines.len() - 1] == "</svg>");
        for line in &lines[1..lines.len() - 1] {
            let closed =
                line.ends_with("/>") || line.ends_with("</text>") || line.ends_with("</title>");
            assert!(line.starts_with('<') && closed, "{line}");
            assert!(!line.contains("NaN") && !line.contains("inf"), "{line}");
            let bare = line.matches('<').count();
            assert_eq!(bare, if line.ends_with("/>") { 1 } else { 2 }, "{line}");
            for (name, most) in [("x", 1_200.0), ("y", 680.0), ("x1", 1_200.0), ("y2", 680.0)] {
                if let Some(value) = attribute(line, name) {
                    let value: f64 = value.parse().unwrap();
                    assert!((0.0..=most).contains(&value), "{line}");
                }
            }
        }
    }

    fn lines(&self, part: &str) -> Vec<&String> {
        self.0.iter().filter(|line| line.contains(part)).collect()
    }

    #[track_caller]
    fn says(&self, text: &str) {
        assert!(!self.lines(text).is_empty(), "no {text}");
    }

    /// Dots of this width, over all paths.
    fn dots(&self, width: &str) -> usize {
        let paths = self.lines(&format!("stroke-width=\"{width}\" stroke-linecap"));
        paths.iter().map(|path| path.matches("h0").count()).sum()
    }

    /// The fills of the bands of a panel, which has its top at `y`, with their places, from left to right.
    fn bands(&self, y: &str) -> Vec<(&str, (f64, f64))> {
        let bands = self.0.iter().filter(|line| {
            let fill = attribute(line, "fill").unwrap_or_default();
            [UMBRA, PENUMBRA].contains(&fill) && attribute(line, "y") == Some(y)
        });
        let place = |line: &str| (number(line, "x"), number(line, "width"));
        let mut bands: Vec<_> =
            bands.map(|line| (attribute(line, "fill").unwrap(), place(line))).collect();
        bands.sort_by(|one, other| one.1 .0.total_cmp(&other.1 .0));
        bands
    }

    /// The bands of one fill in the upper panel, from left to right.
    fn bands_of(&self, fill: &str) -> Vec<(f64, f64)> {
        let bands = self.bands("128").into_iter().filter(|band| band.0 == fill);
        bands.map(|band| band.1).collect()
    }

    /// The strips of the revolutions.
    fn strips(&self) -> Vec<(f64, f64)> {
        let strips = self.lines("y=\"121\"");
        strips.iter().map(|line| (number(line, "x"), number(line, "width"))).collect()
    }
}

fn attribute<'a>(line: &'a str, name: &str) -> Option<&'a str> {
    let (_, rest) = line.split_once(&format!(" {name}=\""))?;
    Some(rest.split_once('"')?.0)
}

fn number(line: &str, name: &str) -> f64 {
    attribute(line, name).unwrap().parse().unwrap()
}

#[test]
fn the_example_day() {
    let picture = Picture::of(LABELS, &["--satellite", "Oscar-10"]);
    picture.says(">Oscar-10: battery power and sunlight<");
    picture.says("day.labels, 1985-08-29 13:45 to 1985-08-30 13:43 UTC, 960 labels");
    for entry in [
        "training (227)",
        "test (267)",
        "withheld (466)",
        "umbra (75)",
        "penumbra (23)",
        "missing (13)",
        "saturated (6)",
        "revolution 1664",
        "30 Aug",
    ] {
        picture.says(&format!(">{entry}<"));
    }
    assert_eq!(picture.dots("4.2"), 960 - 13 - 6);
    assert_eq!(picture.dots("3.2"), 960);
    // The day ends in the umbra of its third eclipse.
    assert_eq!((picture.bands_of(UMBRA).len(), picture.bands_of(PENUMBRA).len()), (3, 5));
    assert_eq!(picture.strips().len(), 3);
    assert!(picture.lines("beyond the scale").is_empty());
}

#[test]
fn one_record() {
    let picture = Picture::of(&label_file(&[valid(0, 5.0)]), &[]);
    picture.says(">Battery power and sunlight<");
    picture.says("day.labels, 1989-12-31 00:00 UTC, 1 label<");
    assert_eq!((picture.dots("6"), picture.strips().len()), (1, 1));
    assert!(picture.bands("128").is_empty());
}

#[test]
fn all_in_shadow() {
    for (shade, fill) in [(DARK, UMBRA), (PART, PENUMBRA)] {
        let labels: Vec<_> = (0..120).map(|record| label(90 * record, shade, 1, -7.0)).collect();
        let picture = Picture::of(&label_file(&labels), &[]);
        let bands = picture.bands("128");
        assert_eq!(bands.len(), 1);
        assert_eq!(bands[0].0, fill);
        assert!(bands[0].1 .1 > 1_000.0);
        // The gridlines are drawn over the band, and seen on it.
        let at = |part: &str| picture.0.iter().position(|line| line.contains(part)).unwrap();
        let part = format!("fill=\"{fill}\"");
        let band = picture.0.iter().rposition(|line| line.contains(&part)).unwrap();
        assert!(at("stroke-opacity") > band);
    }
}

/// An eclipse: the umbra with the penumbra on both sides of it, and nothing between them.
#[test]
fn an_eclipse() {
    let shades = [(LIT, 40), (PART, 3), (DARK, 30), (PART, 2), (LIT, 25)];
    let shades = shades.into_iter().flat_map(|(shade, records)| vec![shade; records]);
    let labels: Vec<_> =
        shades.enumerate().map(|(at, shade)| label(90 * at as i64, shade, 1, 1.0)).collect();
    let picture = Picture::of(&label_file(&labels), &[]);
    picture.says(">umbra (30)<");
    picture.says(">penumbra (5)<");
    for panel in ["128", "484"] {
        let bands = picture.bands(panel);
        let fills: Vec<&str> = bands.iter().map(|band| band.0).collect();
        assert_eq!(fills, [PENUMBRA, UMBRA, PENUMBRA]);
        // A record is as wide as the next.
        let record = bands[1].1 .1 / 30.0;
        for (band, records) in bands.iter().zip([3.0, 30.0, 2.0]) {
            assert!((band.1 .1 - records * record).abs() < 0.2, "{bands:?}");
        }
        for pair in bands.windows(2) {
            let ((_, (left, width)), (_, (next, _))) = (pair[0], pair[1]);
            // Lengths have a tenth.
            assert!((left + width - next).abs() < 0.15, "{bands:?}");
        }
    }
    // The legend has the umbra ahead of the penumbra.
    let legend: Vec<&str> = picture.bands("62").iter().map(|band| band.0).collect();
    assert_eq!(legend, [UMBRA, PENUMBRA]);
}

/// With as many entries as there are and the longest of texts, the legend is within the picture.
#[test]
fn the_legend_stays_inside() {
    let mut labels: Vec<_> =
        (0..1_024).map(|at| label(90 * at, DARK, 1, (at % 9) as f32)).collect();
    labels[50] = valid(90 * 50, -1.2345e30);
    labels[70] = valid(90 * 70, -1.2345e38);
    labels[80] = valid(90 * 80, 1.2345e38);
    let picture = Picture::of(&label_file(&labels), &[]);
    let entries = ["training", "test", "withheld", "umbra", "penumbra", "missing", "saturated"];
    for entry in entries.into_iter().chain(["beyond the scale"]) {
        let lines = picture.lines(&format!(">{entry} ("));
        assert_eq!(lines.len(), 1, "{entry}");
        let text = lines[0].split_once('>').unwrap().1.split_once('<').unwrap().0;
        // Eight units a character are about what the widest font here takes.
        let right = number(lines[0], "x") + 8.0 * text.chars().count() as f64;
        assert!(right <= 1_200.0, "{}", lines[0]);
        // Above the revolutions' numbers, which stand at 115.
        assert!(number(lines[0], "y") < 100.0, "{}", lines[0]);
    }
}

/// Two days without records: nothing is drawn there, on either side of it something is.
#[test]
fn a_gap() {
    let two_days = 2 * 86_400;
    let times =
        (0..60).map(|record| 90 * record).chain((0..60).map(|record| two_days + 90 * record));
    let labels: Vec<_> = times.map(|time| label(time, DARK, 1, -7.0)).collect();
    let picture = Picture::of(&label_file(&labels), &[]);
    for (name, stretches) in [("umbra", picture.bands_of(UMBRA)), ("strips", picture.strips())] {
        assert_eq!(stretches.len(), 2, "{name}");
        let (left, right) = (stretches[0], stretches[1]);
        assert!(left.0 + left.1 < 130.0 && right.0 > 1_120.0, "{name}: {stretches:?}");
    }
    picture.says(">no records<");
    assert!(picture.lines("stroke-dasharray").is_empty());
}

#[test]
fn infinite_and_missing_readings() {
    let readings = [0, 2, 0, 2, 1].into_iter().cycle().take(50).enumerate();
    let labels: Vec<_> =
        readings.map(|(at, reading)| label(90 * at as i64, LIT, reading, 3.0)).collect();
    let picture = Picture::of(&label_file(&labels), &[]);
    picture.says(">missing (20)<");
    picture.says(">saturated (20)<");
    assert_eq!(picture.dots("6"), 10);
    // A mark each, and one in the legend.
    assert_eq!(picture.lines("l8 8m0 -8l-8 8").len(), 21);
    assert_eq!(picture.lines("l5 9h-10z").len(), 21);
    // None valid at all.
    let labels: Vec<_> = (0..5).map(|at| label(at, LIT, 0, 0.0)).collect();
    assert_eq!(Picture::of(&label_file(&labels), &[]).dots("6"), 0);
}

/// Watts far outside the rest are arrows at the edge, and the rest fills the panel.
#[test]
fn outliers() {
    let mut labels: Vec<_> = (0..200).map(|at| valid(90 * at, (at % 9) as f32)).collect();
    let whole = Picture::of(&label_file(&labels), &[]);
    labels[50] = valid(90 * 50, 1e30);
    labels[60] = valid(90 * 60, -5e9);
    let picture = Picture::of(&label_file(&labels), &[]);
    picture.says(">beyond the scale (2): −5e9 to 1e30 W<");
    // Two arrows, and one in the legend.
    assert_eq!(picture.lines("stroke-width=\"1.8\"").len(), 3);
    assert_eq!(picture.dots("4.2"), 198);
    let ticks = |picture: &Picture| picture.lines("text-anchor=\"end\"").len();
    assert_eq!(ticks(&picture), ticks(&whole));
}

#[test]
fn an_empty_day() {
    let picture = Picture::of(&label_file(&[]), &["--satellite=Oscar-10"]);
    picture.says(">The day is empty: the file has no labels.<");
    picture.says("day.labels, no labels");
    picture.says(">Oscar-10: battery power and sunlight<");
}

/// The text of the last tick stays inside, at whatever second the day ends.
#[test]
fn ticks_stay_inside() {
    for span in [0, 1, 59, 60, 600, 3_599, 3_600, 40_000, 86_400, 86_399, 500_000, 30_000_000] {
        for start in [0, 17, 43_000, -1_000_000] {
            let labels = [valid(start, 1.0), valid(start + span, 2.0)];
            let picture = Picture::of(&label_file(&labels), &[]);
            let ticks = picture.lines("y=\"630\"");
            assert!(!ticks.is_empty(), "{start} {span}");
            for tick in ticks {
                let text = tick.split_once('>').unwrap().1.split_once('<').unwrap().0;
                // Seven units a character are more than any font here takes.
                let half = 3.5 * text.chars().count() as f64;
                assert!(number(tick, "x") + half <= 1_200.0, "{tick}");
            }
        }
    }
}

/// Names that XML gives a meaning to, and names that are long.
#[test]
fn names() {
    let folder = Folder::new();
    folder.write("a<b>&\"c\".labels", label_file(&[LABEL]));
    let words = ["plot", "a<b>&\"c\".labels", "out.SVG", "--satellite", "<&\u{1b}>"];
    folder.run(words).is(0, "drawn 1\n");
    let text = String::from_utf8(folder.read("out.SVG")).unwrap();
    assert!(text.contains("a&lt;b&gt;&amp;&quot;c&quot;.labels"));
    assert!(text.contains("&lt;&amp;\u{fffd}&gt;: battery power"));
    let picture = Picture::of(&label_file(&[LABEL]), &["--satellite", ""]);
    picture.says(">Battery power and sunlight<");
    let long = "satellite ".repeat(30);
    let picture = Picture::of(&label_file(&[LABEL]), &["--satellite", &long]);
    assert!(picture.0.iter().all(|line| line.len() < 300));
}

/// Labels of the largest and the smallest values.
#[test]
fn extremes() {
    for labels in [
        vec![valid(-2_834_956_800, f32::MAX), valid(3_476_476_799, f32::MIN)],
        vec![valid(0, f32::MAX); 40],
        vec![valid(0, f32::from_bits(1)), valid(90, -0.0)],
        vec![valid(5, 1.0); 1_024],
    ] {
        Picture::of(&label_file(&labels), &[]);
    }
}
