//! What is wrong with an elements file, from the fault that the proved reader found.

use std::path::Path;

use yurdelmiz::{Element, Fault, Malformed};

use crate::failure::Failure;
use crate::input::looks_like_text;
use crate::{quote, two_line};

/// A line, counted from 1, without its LF; none past the end of the file.
pub fn line_of(text: &[u8], number: usize) -> Option<&[u8]> {
    let mut lines = text.split(|byte| *byte == b'\n').skip(number - 1);
    let line = lines.next()?;
    (!line.is_empty() || lines.next().is_some()).then_some(line)
}

/// What stands in a line, for a message.
pub fn found(text: &[u8], number: usize) -> String {
    match line_of(text, number) {
        _ if text.is_empty() => "the file is empty".to_owned(),
        Some(line) => format!("found {}", quote::bytes(line)),
        None => "found the end of the file".to_owned(),
    }
}

/// A byte order mark, called by its name.
pub fn byte_order_mark(text: &[u8]) -> Option<&'static str> {
    if text.starts_with(b"\xef\xbb\xbf") {
        Some("the file begins with a BOM, the bytes EF BB BF: save it as UTF-8 without BOM")
    } else if text.starts_with(b"\xff\xfe") || text.starts_with(b"\xfe\xff") {
        Some("the file begins with the BOM of UTF-16: save it as UTF-8 without BOM")
    } else {
        None
    }
}

/// The first control byte of a line, called by its name.
pub fn control_byte(line: &[u8]) -> Option<String> {
    let at = line.iter().position(|byte| *byte < 32)?;
    Some(match line[at] {
        b'\t' => "a tab stands here".to_owned(),
        b'\r' if at + 1 == line.len() => "the line ends with CR LF".to_owned(),
        b'\r' => "a carriage return stands here".to_owned(),
        byte => format!("the control byte 0x{byte:02x} stands here"),
    })
}

/// What is wrong, with the bytes of editors called by their names.
pub fn sentence(malformed: Malformed, text: &[u8]) -> String {
    let special = match malformed.fault {
        Fault::Name if malformed.line == 1 => byte_order_mark(text).map(str::to_owned),
        Fault::ControlByte => {
            line_of(text, malformed.line as usize).and_then(control_byte).map(|what| {
                let instead = if what.contains("CR LF") {
                    "end it with LF alone"
                } else {
                    "one space stands between name and value, and nothing else"
                };
                format!("{what}: {instead}")
            })
        }
        _ => None,
    };
    special.unwrap_or_else(|| malformed.sentence())
}

/// File, line, what is wrong, what stands there, and what to write where that can be said.
pub fn failure(path: &Path, text: &[u8], malformed: Malformed, swapped: Swapped) -> Failure {
    let sentence = sentence(malformed, text);
    let found = match malformed.fault {
        Fault::TooLong => "an elements file has twelve lines and some comments".to_owned(),
        _ => found(text, malformed.line as usize),
    };
    let hint = match hint(path, text, malformed, swapped) {
        Some(hint) => format!("; {hint}"),
        None => String::new(),
    };
    let (path, line) = (quote::path(path), malformed.line);
    Failure::refused(format!("{path}, line {line}: {sentence}; {found}{hint}"))
}

/// The operand that a file given for ELEMENTS may be.
#[derive(Clone, Copy)]
pub enum Swapped {
    Telemetry,
    Table,
}

impl Swapped {
    /// What to say of a file that may be it.
    pub fn hint(self, path: &Path, text: &[u8]) -> Option<&'static str> {
        if text.is_empty() || byte_order_mark(text).is_some() {
            return None;
        }
        let csv = text.starts_with(b"time,") || path.extension().is_some_and(|it| it == "csv");
        let bytes = !looks_like_text(text);
        match self {
            Swapped::Telemetry => (csv || bytes)
                .then_some("is it the telemetry? The order is ELEMENTS TELEMETRY LABELS"),
            Swapped::Table => bytes.then_some("is it the table? The order is TABLE ELEMENTS"),
        }
    }
}

fn hint(path: &Path, text: &[u8], malformed: Malformed, swapped: Swapped) -> Option<String> {
    if two_line::looks_like_two_lines(text) {
        return Some(format!("it looks like two-line elements, which need {}", two_line::OPTIONS));
    }
    if let Some(hint) = swapped.hint(path, text) {
        return Some(hint.to_owned());
    }
    if (malformed.fault, malformed.element)
        == (Fault::Missing, Some(Element::HalfMeanMotionDerivative))
    {
        return Some("write 0 where the mean motion is constant".to_owned());
    }
    let (line, element) = (line_of(text, malformed.line as usize)?, malformed.element?);
    let value = value_of(line, element)?;
    match malformed.fault {
        Fault::DecimalPoint | Fault::NotWhole => whole(element, value),
        Fault::Unended => Some("end it with LF, so that a file cut short can be told".to_owned()),
        _ => None,
    }
}

/// What stands behind the name and the space.
fn value_of(line: &[u8], element: Element) -> Option<&str> {
    let line = std::str::from_utf8(line).ok()?;
    line.strip_prefix(element.name())?.strip_prefix(' ')
}

/// A decimal, in units of 10^-places.
struct Decimal {
    number: i128,
    places: u32,
}

impl Decimal {
    /// Digits with one point or comma among them; none where a person would not read a number.
    fn read(text: &str) -> Option<Decimal> {
        let text = text.trim();
        let (digits, sign) = match text.strip_prefix('-') {
            Some(digits) => (digits, -1),
            None => (text, 1),
        };
        let (whole, part) = digits.split_once(['.', ','])?;
        let digits = format!("{whole}{part}");
        if digits.is_empty() || digits.len() > 18 || !digits.bytes().all(|b| b.is_ascii_digit()) {
            return None;
        }
        Some(Decimal { number: sign * digits.parse::<i128>().ok()?, places: part.len() as u32 })
    }

    /// The number in units of 1/scale, to the nearest.
    fn scaled(&self, scale: i128) -> i128 {
        let unit = 10i128.pow(self.places);
        (2 * self.number * scale + unit).div_euclid(2 * unit)
    }
}

/// The whole number that a decimal stands for, in the unit that people use for the element.
pub fn whole(element: Element, value: &str) -> Option<String> {
    let decimal = Decimal::read(value)?;
    let shown = value.trim();
    Some(match element {
        Element::Eccentricity => format!("{shown} is written {}", decimal.scaled(10_000_000)),
        Element::SemiMajorAxis => format!(
            "{shown} metres are written {}, {shown} km {}",
            decimal.scaled(1),
            decimal.scaled(1_000)
        ),
        Element::Inclination
        | Element::Node
        | Element::ArgumentOfPerigee
        | Element::MeanAnomaly => {
            let turn = 1i128 << 32;
            let angle = (decimal.number * turn).div_euclid(360 * 10i128.pow(decimal.places));
            format!("{shown} degrees are written {}", angle.rem_euclid(turn))
        }
        Element::MeanMotion => {
            format!("{shown} revolutions a day are written {}", decimal.scaled(100_000_000))
        }
        Element::NodeRate | Element::PerigeeRate => {
            format!("{shown} degrees a day are written {}", decimal.scaled(10_000))
        }
        Element::HalfMeanMotionDerivative => {
            format!("{shown} revolutions a day squared are written {}", decimal.scaled(100_000_000))
        }
        Element::EpochRevolution | Element::Epoch => return None,
    })
}

#[cfg(test)]
mod tests {
    use super::*;

    #[test]
    fn lines() {
        let text = b"one\n\ntwo\n";
        assert_eq!(line_of(text, 1), Some(&b"one"[..]));
        assert_eq!(line_of(text, 2), Some(&b""[..]));
        assert_eq!(line_of(text, 3), Some(&b"two"[..]));
        assert_eq!(line_of(text, 4), None);
        assert_eq!(line_of(text, 5), None);
        assert_eq!(line_of(b"", 1), None);
        assert_eq!(line_of(b"one\ntw", 2), Some(&b"tw"[..]));
    }

    /// The example's elements, from the decimals of its comments.
    #[test]
    fn decimals_as_whole_numbers() {
        for (element, value, told) in [
            (Element::Eccentricity, "0.61", "0.61 is written 6100000"),
            (Element::Eccentricity, "0,61", "0,61 is written 6100000"),
            (Element::Eccentricity, ".00000005", ".00000005 is written 1"),
            (
                Element::SemiMajorAxis,
                "26100.0",
                "26100.0 metres are written 26100, 26100.0 km 26100000",
            ),
            (Element::Inclination, "25.6", "25.6 degrees are written 305419896"),
            (Element::Node, "121.2", "121.2 degrees are written 1445972322"),
            (Element::MeanAnomaly, "129.3", "129.3 degrees are written 1542609087"),
            (Element::MeanAnomaly, "-0.5", "-0.5 degrees are written 4289002063"),
            (Element::MeanMotion, "2.0589", "2.0589 revolutions a day are written 205890000"),
            (Element::NodeRate, "-0.1724", "-0.1724 degrees a day are written -1724"),
            (
                Element::HalfMeanMotionDerivative,
                "-.00001234",
                "-.00001234 revolutions a day squared are written -1234",
            ),
        ] {
            assert_eq!(whole(element, value).unwrap(), told);
        }
        for value in ["1e5", "0.6.1", "x", "", ".", "1234567890123456789.5"] {
            assert_eq!(whole(Element::Eccentricity, value), None, "{value}");
        }
    }
}
