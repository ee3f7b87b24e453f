//! SVG, one element a line.

use super::style::{HEIGHT, INK, WIDTH};

/// Text without what XML gives a meaning to, or does not allow.
pub fn escaped(text: &str) -> String {
    let mut safe = String::new();
    for character in text.chars() {
        match character {
            '&' => safe.push_str("&amp;"),
            '<' => safe.push_str("&lt;"),
            '>' => safe.push_str("&gt;"),
            '"' => safe.push_str("&quot;"),
            '\u{fffe}' | '\u{ffff}' => safe.push('\u{fffd}'),
            other if other.is_control() => safe.push('\u{fffd}'),
            other => safe.push(other),
        }
    }
    safe
}

/// A length to a tenth.
fn number(value: f64) -> String {
    let text = format!("{value:.1}");
    let text = text.strip_suffix(".0").unwrap_or(&text);
    if text == "-0" { "0" } else { text }.to_owned()
}

/// How a text is set.
#[derive(Clone, Copy)]
pub struct Font {
    pub size: f64,
    pub colour: &'static str,
    pub anchor: &'static str,
    pub bold: bool,
}

impl Font {
    pub const PLAIN: Font = Font { size: 13.0, colour: INK, anchor: "start", bold: false };

    /// About how wide a text is: no font is at hand to measure it.
    pub fn width(self, text: &str) -> f64 {
        let per_character = if self.bold { 0.61 } else { 0.55 };
        text.chars().count() as f64 * self.size * per_character
    }
}

pub struct Drawing {
    lines: Vec<String>,
}

impl Drawing {
    pub fn new(title: &str) -> Drawing {
        let (width, height, title) = (number(WIDTH), number(HEIGHT), escaped(title));
        Drawing {
            lines: vec![
                format!(
                    "<svg xmlns=\"http://www.w3.org/2000/svg\" viewBox=\"0 0 {width} {height}\" \
                     width=\"{width}\" height=\"{height}\" role=\"img\" \
                     font-family=\"Helvetica, Arial, DejaVu Sans, sans-serif\">"
                ),
                format!("<title>{title}</title>"),
                format!("<rect width=\"{width}\" height=\"{height}\" fill=\"#ffffff\"/>"),
            ],
        }
    }

    pub fn rect(&mut self, x: f64, y: f64, width: f64, height: f64, fill: &str) {
        let [x, y, width, height] = [x, y, width, height].map(number);
        self.lines.push(format!(
            "<rect x=\"{x}\" y=\"{y}\" width=\"{width}\" height=\"{height}\" fill=\"{fill}\"/>"
        ));
    }

    /// A line with its colour and further attributes.
    pub fn line(&mut self, from: (f64, f64), to: (f64, f64), stroke: &str) {
        let [x1, y1, x2, y2] = [from.0, from.1, to.0, to.1].map(number);
        self.lines
            .push(format!("<line x1=\"{x1}\" y1=\"{y1}\" x2=\"{x2}\" y2=\"{y2}\" {stroke}/>"));
    }

    pub fn text(&mut self, x: f64, y: f64, text: &str, font: Font) {
        self.set_text(x, y, text, font, "");
    }

    /// A text from below to above.
    pub fn upright_text(&mut self, x: f64, y: f64, text: &str, font: Font) {
        let turn = format!(" transform=\"rotate(-90 {} {})\"", number(x), number(y));
        self.set_text(x, y, text, font, &turn);
    }

    fn set_text(&mut self, x: f64, y: f64, text: &str, font: Font, turn: &str) {
        let [x, y, size] = [x, y, font.size].map(number);
        let weight = if font.bold { " font-weight=\"bold\"" } else { "" };
        let Font { colour, anchor, .. } = font;
        let text = escaped(text);
        self.lines.push(format!(
            "<text x=\"{x}\" y=\"{y}\" font-size=\"{size}\" fill=\"{colour}\" \
             text-anchor=\"{anchor}\"{weight}{turn}>{text}</text>"
        ));
    }

    /// Round dots as one path: each is a line of no length with round ends.
    pub fn dots(&mut self, at: &[(f64, f64)], colour: &str, radius: f64) {
        if at.is_empty() {
            return;
        }
        let dots: Vec<String> =
            at.iter().map(|(x, y)| format!("M{} {}h0", number(*x), number(*y))).collect();
        self.lines.push(format!(
            "<path d=\"{}\" stroke=\"{colour}\" stroke-width=\"{}\" stroke-linecap=\"round\"/>",
            dots.concat(),
            number(2.0 * radius)
        ));
    }

    pub fn cross(&mut self, x: f64, y: f64, colour: &str) {
        let (x, y) = (number(x - 4.0), number(y - 4.0));
        self.lines.push(format!(
            "<path d=\"M{x} {y}l8 8m0 -8l-8 8\" stroke=\"{colour}\" stroke-width=\"1.6\"/>"
        ));
    }

    pub fn triangle(&mut self, x: f64, y: f64, colour: &str) {
        let (x, y) = (number(x), number(y - 5.0));
        self.lines.push(format!("<path d=\"M{x} {y}l5 9h-10z\" fill=\"{colour}\"/>"));
    }

    /// An arrow with its tip at the point, up or down.
    pub fn arrow(&mut self, x: f64, y: f64, up: bool, colour: &str) {
        let (x, y, back) = (number(x), number(y), if up { "" } else { "-" });
        self.lines.push(format!(
            "<path d=\"M{x} {y}v{back}11m-4 {ahead}7l4 {ahead}4l4 {back}4\" fill=\"none\" \
             stroke=\"{colour}\" stroke-width=\"1.8\"/>",
            ahead = if up { "-" } else { "" },
        ));
    }

    pub fn finish(mut self) -> String {
        self.lines.push("</svg>\n".to_owned());
        self.lines.join("\n")
    }
}

#[cfg(test)]
mod tests {
    use super::*;

    #[test]
    fn names_are_escaped() {
        assert_eq!(escaped("<a&\"b\">\u{1b}"), "&lt;a&amp;&quot;b&quot;&gt;\u{fffd}");
    }

    #[test]
    fn lengths() {
        for (value, text) in [(12.0, "12"), (0.05, "0.1"), (-0.01, "0"), (10.25, "10.2")] {
            assert_eq!(number(value), text);
        }
    }
}
