//! Why two lines were refused for how they are written: which line, which columns, what stands there and what is
//! due. The refusal is the library's.

use yurdelmiz::{Refusal, Refused, TwoLineField};

use super::layout::Layout;
use super::lines::{Line, CR_LF};
use super::set::TwoLineSet;
use crate::date::Civil;
use crate::{malformed, quote};

const COLUMNS: usize = TwoLineField::COLUMNS;

impl TwoLineSet<'_> {
    /// Why they were refused, with the file.
    pub fn refused(&self, refused: Refused) -> String {
        let told = match refused.refusal {
            Refusal::Lines => self.each_line(|own| bad_line(&self.lines[own - 1], own)),
            Refusal::Checksum => self.each_line(|own| self.bad_checksum(own)),
            Refusal::Field => TwoLineField::at(refused.place).map(|field| self.bad_field(&field)),
            Refusal::SatelliteNumbers => Some(self.other_satellite()),
            _ => None,
        };
        let path = quote::path(self.path);
        match told {
            Some(told) => format!("{path}, {told}"),
            None => format!("{path}: {refused}"),
        }
    }

    /// What is wrong with either line, or both.
    fn each_line(&self, fault: impl Fn(usize) -> Option<String>) -> Option<String> {
        match [1, 2].map(fault) {
            [None, None] => None,
            [Some(one), Some(two)] if one == two => {
                Some(format!("{} and {}: {one}", self.line(1), self.line(2)))
            }
            faults => {
                let faults = faults.into_iter().zip(1..);
                let told =
                    faults.filter_map(|(it, own)| Some(format!("{}: {}", self.line(own), it?)));
                Some(told.collect::<Vec<_>>().join("; "))
            }
        }
    }

    /// The two sums, and a column of the line that does not hold what is due there.
    fn bad_checksum(&self, own: usize) -> Option<String> {
        let line = &self.lines[own - 1];
        let (last, columns) = line.bytes.split_last()?;
        let sum = checksum(columns);
        if *last == b'0' + sum {
            return None;
        }
        if *last == b'\r' {
            return Some(unsound(line, own));
        }
        let fields = TwoLineField::ALL.into_iter().filter(|field| field.line == own);
        let misfit = fields.filter_map(|field| self.misfit(&field)).next();
        let hint = misfit.unwrap_or_else(|| "compare it with the line as it came".to_owned());
        Some(format!(
            "the checksum of its first 68 columns is {sum}, and column 69 has {}: a digit or a minus is wrong, lost or put in; \
             {hint}; found {}",
            quote::bytes(&[*last]),
            quote::bytes(&line.bytes)
        ))
    }

    fn bad_field(&self, field: &TwoLineField) -> String {
        let layout = Layout::of(field);
        let why = self.misfit(field).unwrap_or_else(|| match layout {
            Layout::Day => self.outside_its_year(),
            Layout::Angle => "it is 360 degrees or more".to_owned(),
            _ => "it is refused".to_owned(),
        });
        let (place, name) = (self.columns(field), field.name);
        let (text, due) = (quote::bytes(self.text_of(field)), layout.words());
        format!("{place}: {name} {text}: {why}; the field has {due}")
    }

    /// The first column of a field that does not hold what is due there.
    fn misfit(&self, field: &TwoLineField) -> Option<String> {
        let text = self.text_of(field);
        let (at, due) = Layout::of(field).misfit(text)?;
        let (column, found) = (field.first + at, quote::bytes(&text[at..at + 1]));
        Some(format!("column {column} has {found}, where {due} is due"))
    }

    /// The days that the epoch's year has.
    fn outside_its_year(&self) -> String {
        let digits = self.lines[0].bytes.get(18..20).and_then(|two| std::str::from_utf8(two).ok());
        let Some(two) = digits.and_then(|two| two.parse::<i64>().ok()) else {
            return "it is outside its year".to_owned();
        };
        let year = if two < 57 { 2000 + two } else { 1900 + two };
        let leap_day = Civil { year, month: 2, day: 29, hour: 0, minute: 0, second: 0 };
        let days = if leap_day.time().is_some() { 366 } else { 365 };
        format!("the year is {year}, and has the days 1 to {days}")
    }

    fn other_satellite(&self) -> String {
        let mut fields = TwoLineField::ALL.into_iter().filter(|it| it.first == 3);
        let [one, two] = [fields.next(), fields.next()].map(|field| match field {
            Some(it) => format!("{}: {}", self.columns(&it), quote::bytes(self.text_of(&it))),
            None => String::new(),
        });
        format!("{one}, and {two}: the satellite numbers differ; are the two lines of one set?")
    }
}

/// The sum modulo 10 of the digits, with 1 for a minus.
fn checksum(columns: &[u8]) -> u8 {
    let sum: u32 = columns
        .iter()
        .map(|byte| match byte {
            b'0'..=b'9' => u32::from(byte - b'0'),
            b'-' => 1,
            _ => 0,
        })
        .sum();
    (sum % 10) as u8
}

/// What is wrong with a line's length or its number.
fn bad_line(line: &Line, own: usize) -> Option<String> {
    (!is_sound(&line.bytes, own)).then(|| unsound(line, own))
}

/// Whether a line has its length and its number.
fn is_sound(bytes: &[u8], own: usize) -> bool {
    bytes.len() == COLUMNS && bytes[0] == digit(own)
}

fn digit(own: usize) -> u8 {
    b'0' + own as u8
}

/// What is wrong with a line that has not its length or its number, or has them by its CR, and what that may come
/// from.
fn unsound(line: &Line, own: usize) -> String {
    let bytes = &line.bytes[..];
    let found = quote::bytes(bytes);
    if let Some(mark) = malformed::byte_order_mark(bytes).filter(|_| line.number == 1) {
        return format!("{mark}; found {found}");
    }
    let bare = bytes.strip_suffix(b"\r").unwrap_or(bytes);
    let mut told = Vec::new();
    if bare.len() < bytes.len() {
        if is_sound(bare, own) {
            return CR_LF.to_owned();
        }
        told.push(CR_LF.to_owned());
    }
    if bare.len() != COLUMNS {
        told.push(bad_length(bare, own));
    }
    if bare.first() != Some(&digit(own)) {
        let start = quote::bytes(&bare[..bare.len().min(1)]);
        told.push(format!("it begins with {start}, and not with {own}"));
    }
    format!("{}; found {found}", told.join("; "))
}

/// How long a line is, and where a column was lost or put in, as far as that can be seen.
fn bad_length(bytes: &[u8], own: usize) -> String {
    let strange = bytes.iter().position(|byte| !(32..127).contains(byte));
    let unit = if strange.is_some() { " bytes" } else { "" };
    let where_to_look = match strange {
        Some(at) if bytes[at] == b'\t' => format!("a tab stands in column {}", at + 1),
        Some(at) => {
            let found = quote::bytes(first_character(&bytes[at..]));
            format!("{found} in column {} is none that the layout has", at + 1)
        }
        None if bytes.trim_ascii_end().len() == COLUMNS => "blanks stand at its end".to_owned(),
        None if bytes.trim_ascii_start().len() == COLUMNS => "blanks stand at its start".to_owned(),
        None => moved_point(bytes, own),
    };
    format!("its length is {}{unit}, and not 69: {where_to_look}", bytes.len())
}

/// The first character of some bytes, or the first byte where that is none.
fn first_character(bytes: &[u8]) -> &[u8] {
    let length =
        (1..=bytes.len().min(4)).find(|length| std::str::from_utf8(&bytes[..*length]).is_ok());
    &bytes[..length.unwrap_or(1)]
}

/// The first field whose point is not in its column.
fn moved_point(bytes: &[u8], own: usize) -> String {
    let fields = TwoLineField::ALL.into_iter().filter(|field| field.line == own);
    let mut points = fields.filter_map(|it| Some((it, it.first + Layout::of(&it).point()?)));
    match points.find(|(_, column)| bytes.get(column - 1) != Some(&b'.')) {
        Some((field, column)) => {
            format!("the point of the {} is not in column {column}: look ahead of it", field.name)
        }
        None => "each point is in its column: look behind the last".to_owned(),
    }
}

#[cfg(test)]
mod tests {
    use std::path::Path;

    use super::*;
    use crate::two_line::AxisAndRates;

    const ONE: &str = "1 14129U 83058B   85224.07291667  .00000000  00000-0  00000-0 0    14";
    const TWO: &str = "2 14129  25.6000 121.2000 6100000  40.1000 129.3000  2.05890000 16275";

    const BESIDE: AxisAndRates =
        AxisAndRates { semi_major_axis: 26_100_000, node_rate: -1_724, perigee_rate: 2_834 };

    fn set(text: &[u8]) -> TwoLineSet<'static> {
        TwoLineSet::find(Path::new("set"), text, BESIDE).unwrap()
    }

    /// A line with other bytes from a column on, and with their checksum.
    fn with(line: &str, column: usize, bytes: &[u8]) -> Vec<u8> {
        let mut line = line.as_bytes().to_vec();
        line[column - 1..column - 1 + bytes.len()].copy_from_slice(bytes);
        line[68] = b'0' + checksum(&line[..68]);
        line
    }

    fn joined(one: impl AsRef<[u8]>, two: impl AsRef<[u8]>) -> Vec<u8> {
        [one.as_ref(), b"\n", two.as_ref()].concat()
    }

    /// The refusal of the library, and what is told of it.
    #[track_caller]
    fn told(text: &[u8], number: u32, place: u32, told: &str) {
        let set = set(text);
        let refused = set.elements().unwrap_err();
        assert_eq!((refused.refusal.number(), refused.place), (number, place));
        assert_eq!(set.refused(refused), format!("set, {told}"));
    }

    #[test]
    fn the_example() {
        let text = include_bytes!("../../../../examples/oscar10/set.tle");
        assert_eq!(text, format!("OSCAR 10\n{ONE}\n{TWO}\n").as_bytes());
        assert!(set(text).elements().is_ok());
    }

    /// A second line that has not its length, or not its number.
    #[test]
    fn lines() {
        let changed = |from: &str, to: &str| TWO.replacen(from, to, 1).into_bytes();
        let moved = |name: &str, column: usize| {
            format!("the point of the {name} is not in column {column}: look ahead of it")
        };
        let behind = "each point is in its column: look behind the last".to_owned();
        for (line, length, what) in [
            (changed("  25", " 25"), "68", moved("inclination", 12)),
            (changed("  25", "   25"), "70", moved("inclination", 12)),
            (changed("6100000", "610000"), "68", moved("argument of perigee", 38)),
            (changed("16275", "1675"), "68", behind.clone()),
            (changed("16275", "1627500"), "71", behind),
            (TWO.as_bytes()[..10].to_vec(), "10", moved("inclination", 12)),
            (changed("16275", "16275  "), "71", "blanks stand at its end".to_owned()),
            (changed("  25", "\t25"), "68 bytes", "a tab stands in column 8".to_owned()),
            (
                changed(" 40", "\u{2212}40"),
                "71 bytes",
                "\"\u{2212}\" in column 35 is none that the layout has".to_owned(),
            ),
            (
                [TWO.as_bytes(), b"\xff"].concat(),
                "70 bytes",
                "\"\\xff\" in column 70 is none that the layout has".to_owned(),
            ),
        ] {
            let found = quote::bytes(&line);
            let what = format!("line 2: its length is {length}, and not 69: {what}; found {found}");
            told(&joined(ONE, &line), 17, 0, &what);
        }
        let what = format!(
            "line 2: its length is 70, and not 69: blanks stand at its start; it begins with \" \", and not with 2; \
             found \" {TWO}\""
        );
        told(&joined(ONE, format!(" {TWO}")), 17, 0, &what);
        let what = format!(
            "line 1: it begins with \"2\", and not with 1; found \"{TWO}\"; line 2: it begins with \"1\", and not \
             with 2; found \"{ONE}\""
        );
        told(&joined(TWO, ONE), 17, 0, &what);
        let marked = format!("\u{feff}{ONE}");
        let what = format!(
            "line 1: the file begins with a BOM, the bytes EF BB BF: save it as UTF-8 without BOM; found {}",
            quote::bytes(marked.as_bytes())
        );
        told(&joined(marked, TWO), 17, 0, &what);
    }

    #[test]
    fn lines_that_end_with_cr_lf() {
        for (text, lines) in [
            (format!("{ONE}\r\n{TWO}\r\n"), "line 1 and line 2"),
            (format!("{ONE}\r\n{TWO}"), "line 1"),
            (format!("{ONE}\n{TWO}\r\n"), "line 2"),
            (
                format!("OSCAR 10\r\n{ONE}\r\n{TWO}\r\n"),
                "line 2 (line 1 of the set) and line 3 (line 2 of the set)",
            ),
        ] {
            told(text.as_bytes(), 17, 0, &format!("{lines}: {CR_LF}"));
        }
        // Where the CR stands in column 69 it is the checksum that is refused.
        for (length, number) in [(68, 18), (67, 17)] {
            let short = &TWO[..length];
            let what = format!(
                "line 2: {CR_LF}; its length is {length}, and not 69: each point is in its column: look behind \
                 the last; found \"{short}\\r\""
            );
            told(format!("{ONE}\n{short}\r\n").as_bytes(), number, 0, &what);
        }
    }

    #[test]
    fn checksums() {
        let other = format!("{}5", &ONE[..68]);
        let letter = TWO.replacen('1', "l", 1);
        let wrong = "a digit or a minus is wrong, lost or put in";
        let one = format!(
            "line 1: the checksum of its first 68 columns is 4, and column 69 has \"5\": {wrong}; compare it with \
             the line as it came; found \"{other}\""
        );
        let two = format!(
            "line 2: the checksum of its first 68 columns is 4, and column 69 has \"5\": {wrong}; column 3 has \
             \"l\", where a digit or a leading blank is due; found \"{letter}\""
        );
        told(&joined(&other, TWO), 18, 0, &one);
        told(&joined(ONE, &letter), 18, 0, &two);
        told(&joined(&other, &letter), 18, 0, &format!("{one}; {two}"));
    }

    #[test]
    fn fields() {
        let angle = "three columns ahead of the point, leading blanks allowed, and four digits behind it, in degrees \
                     below 360";
        let day = "three digits ahead of the point and eight behind it, none of them blank";
        for (one, two, place, what) in [
            (
                ONE.into(),
                with(TWO, 18, b"121,2000"),
                87,
                format!("line 2, columns 18 to 25: right ascension of the ascending node \"121,2000\": column 21 has \
                         \",\", where the point is due; the field has {angle}"),
            ),
            (
                ONE.into(),
                with(TWO, 9, b"360.0000"),
                78,
                format!("line 2, columns 9 to 16: inclination \"360.0000\": it is 360 degrees or more; the field has \
                         {angle}"),
            ),
            (
                ONE.into(),
                with(TWO, 44, b"1 9.3000"),
                113,
                format!("line 2, columns 44 to 51: mean anomaly \"1 9.3000\": column 45 has \" \", where a digit is \
                         due; the field has {angle}"),
            ),
            (
                with(ONE, 21, b"366"),
                TWO.into(),
                21,
                format!("line 1, columns 21 to 32: day of the epoch \"366.07291667\": the year is 1985, and has the \
                         days 1 to 365; the field has {day}"),
            ),
            (
                with(ONE, 19, b"56367"),
                TWO.into(),
                21,
                format!("line 1, columns 21 to 32: day of the epoch \"367.07291667\": the year is 2056, and has the \
                         days 1 to 366; the field has {day}"),
            ),
            (
                with(ONE, 19, b"57 12"),
                TWO.into(),
                21,
                format!("line 1, columns 21 to 32: day of the epoch \" 12.07291667\": column 21 has \" \", where a \
                         digit is due; the field has {day}"),
            ),
            (
                with(ONE, 34, b"0"),
                TWO.into(),
                34,
                "line 1, columns 34 to 43: half the derivative of the mean motion \"0.00000000\": column 34 has \
                 \"0\", where a blank, plus or minus is due; the field has a blank, plus or minus, the point, and \
                 eight digits"
                    .to_owned(),
            ),
            (
                ONE.into(),
                with(TWO, 27, b"\xc3\xa9\x1b"),
                96,
                "line 2, columns 27 to 33: eccentricity \"\u{e9}\\u{1b}0000\": column 27 has \"\\xc3\", where a digit \
                 is due; the field has seven digits, the point ahead of them implied"
                    .to_owned(),
            ),
        ] {
            told(&joined(one, two), 19, place, &what);
        }
    }

    /// Each byte in each column of each field: what the library refuses is told with the column, or with the range
    /// that it is outside of, and what it does not refuse fits.
    #[test]
    fn every_byte_of_every_field() {
        for field in TwoLineField::ALL {
            for column in field.first..=field.last {
                for byte in (0..=255).filter(|byte| *byte != b'\n') {
                    let text = match field.line {
                        1 => joined(with(ONE, column, &[byte]), TWO),
                        _ => joined(ONE, with(TWO, column, &[byte])),
                    };
                    let set = set(&text);
                    let misfit = set.misfit(&field);
                    match set.elements() {
                        Err(refused) if refused.refusal == Refusal::Field => {
                            assert_eq!(refused.place, field.place());
                            let ranged = byte.is_ascii_digit() || byte == b' ';
                            assert!(misfit.is_some() || ranged, "{byte} in {column}");
                            let why = set.refused(refused);
                            let column = format!("column {column} has ");
                            let range =
                                [": it is 360 degrees or more;", ", and has the days 1 to 36"];
                            let in_range = range.iter().any(|it| why.contains(it));
                            assert_eq!(in_range, misfit.is_none(), "{why}");
                            assert!(in_range || byte == b' ' || why.contains(&column), "{why}");
                        }
                        _ => assert_eq!(misfit, None, "{byte} in {column}"),
                    }
                }
            }
        }
    }

    #[test]
    fn satellite_numbers() {
        let two = with(TWO, 3, b"  129");
        let what = "line 1, columns 3 to 7: \"14129\", and line 2, columns 3 to 7: \"  129\": the satellite numbers \
                    differ; are the two lines of one set?";
        told(&joined(ONE, &two), 20, 0, what);
        let what = "line 2 (line 1 of the set), columns 3 to 7: \"14129\", and line 3 (line 2 of the set), columns 3 to \
                    7: \"  129\": the satellite numbers differ; are the two lines of one set?";
        told(&joined("OSCAR 10", joined(ONE, &two)), 20, 0, what);
    }
}
