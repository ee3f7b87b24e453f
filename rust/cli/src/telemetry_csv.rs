//! Telemetry as CSV: the header `time,volts,amperes`, then a line for each record. Nothing is guessed: a line
//! that is not exactly this is told with its number.

use yurdelmiz::Sample;

use crate::input::looks_like_text;
use crate::malformed::{byte_order_mark, control_byte};
use crate::{quote, time_text};

const HEADER: [&str; 3] = ["time", "volts", "amperes"];

/// Said of a first line that no person wrote.
const NO_TEXT: &str =
    "this is no text; a file of 16-byte records is named otherwise than .csv, and takes no --csv";

const UNENDED: &str =
    "the file ends within this line: end it with LF, so that a file cut short can be told";

/// The longest file that is read.
pub const LONGEST: usize = 16 << 20;

/// A record and the number of its line, from 1.
#[derive(Clone, Copy, Debug, PartialEq)]
pub struct Row {
    pub line: usize,
    pub sample: Sample,
}

/// The first line that is no record.
#[derive(Debug, PartialEq, Eq)]
pub struct BadLine {
    pub line: usize,
    /// What is wrong, and what to do.
    pub what: String,
}

pub fn parse(text: &[u8]) -> Result<Vec<Row>, BadLine> {
    let text = text_without_mark(text).map_err(|what| BadLine { line: 1, what })?;
    let mut header = false;
    let mut rows = Vec::new();
    let mut lines = text.split(|byte| *byte == b'\n').zip(1..).peekable();
    while let Some((line, number)) = lines.next() {
        let told = |what| BadLine { line: number, what };
        // Behind the last LF there is nothing.
        if lines.peek().is_none() && !line.is_empty() {
            return Err(told(UNENDED.to_owned()));
        }
        let line = text_of(line).map_err(told)?;
        if line.trim_matches(' ').is_empty() {
            continue;
        }
        let fields = fields_of(line).map_err(told)?;
        if header {
            rows.push(Row { line: number, sample: sample_of(&fields).map_err(told)? });
        } else {
            check_header(line, &fields).map_err(told)?;
            header = true;
        }
    }
    if !header {
        let what = format!("the file has no header, {}", HEADER.join(","));
        return Err(BadLine { line: 1, what });
    }
    Ok(rows)
}

/// The text behind a mark that spreadsheets begin a file with.
fn text_without_mark(text: &[u8]) -> Result<&[u8], String> {
    if text.len() > LONGEST {
        let what = "the file has more than 16,777,216 bytes: a day has at most 1,024 records";
        return Err(what.to_owned());
    }
    let text = text.strip_prefix(b"\xef\xbb\xbf").unwrap_or(text);
    if let Some(mark) = byte_order_mark(text) {
        return Err(mark.to_owned());
    }
    let first = text.split(|byte| *byte == b'\n').next().unwrap_or_default();
    if !first.is_empty() && !looks_like_text(first) {
        return Err(NO_TEXT.to_owned());
    }
    Ok(text)
}

/// A line without its CR, where it is text.
fn text_of(line: &[u8]) -> Result<&str, String> {
    let line = line.strip_suffix(b"\r").unwrap_or(line);
    if let Some(what) = control_byte(line) {
        return Err(if line.contains(&b'\t') {
            format!("{what}: commas separate the fields")
        } else {
            // CR CR LF, as a file converted twice has it.
            what.replace("CR LF", "CR CR LF")
        });
    }
    std::str::from_utf8(line).map_err(|_| format!("this is no text: {}", quote::bytes(line)))
}

/// The fields between commas, without the spaces and the quotes around them.
fn fields_of(line: &str) -> Result<Vec<&str>, String> {
    line.split(',').map(field_of).collect()
}

fn field_of(field: &str) -> Result<&str, String> {
    let field = field.trim_matches(' ');
    let inner = match field.strip_prefix('"') {
        Some(rest) => rest.strip_suffix('"').ok_or("a quote is not closed in its field")?,
        None => field,
    };
    if inner.contains('"') {
        return Err("a quote stands within a field".to_owned());
    }
    Ok(inner)
}

fn check_header(line: &str, fields: &[&str]) -> Result<(), String> {
    let same = fields.len() == HEADER.len()
        && fields.iter().zip(HEADER).all(|(field, name)| field.eq_ignore_ascii_case(name));
    if same {
        return Ok(());
    }
    let due = HEADER.join(",");
    Err(if fields.first().is_some_and(|field| time_of(field).is_ok()) {
        format!("the header is missing: the first line is {due}")
    } else if line.contains(';') && fields.len() < HEADER.len() {
        format!("the header is {due}: commas separate the fields, and not semicolons")
    } else {
        format!("the header is {due}, and here stands {}", quote::bytes(line.as_bytes()))
    })
}

fn sample_of(fields: &[&str]) -> Result<Sample, String> {
    let [time, volts, amperes] = fields else {
        let number = fields.len();
        let s = if number == 1 { "" } else { "s" };
        let hint = if number > 3 { "; a decimal has a point, and no comma" } else { "" };
        return Err(format!("{number} field{s}, and three are due: time, volts, amperes{hint}"));
    };
    Ok(Sample {
        time: time_of(time)?,
        volts: number_of("volts", volts)?,
        amperes: number_of("amperes", amperes)?,
    })
}

/// As [`time_text::read`] has it.
fn time_of(field: &str) -> Result<i64, String> {
    if field.is_empty() {
        return Err("the time is empty".to_owned());
    }
    let shown = || quote::bytes(field.as_bytes());
    time_text::read(field).map_err(|why| format!("the time {} {why}", shown()))
}

/// The nearest binary32 of a decimal; a NaN where it is missing.
fn number_of(name: &str, field: &str) -> Result<f32, String> {
    let size = field.strip_prefix(['-', '+']).unwrap_or(field);
    let missing = field.is_empty() || size.eq_ignore_ascii_case("nan");
    if missing {
        return Ok(f32::NAN);
    }
    let infinite = ["inf", "infinity"].iter().any(|name| size.eq_ignore_ascii_case(name));
    if infinite || is_decimal(size) {
        if let Ok(number) = field.parse() {
            return Ok(number);
        }
    }
    let shown = quote::bytes(field.as_bytes());
    Err(format!("{name} {shown} is no decimal number; leave it empty where it is missing"))
}

/// Digits with at most one point among them, and an exponent or none.
fn is_decimal(text: &str) -> bool {
    let digits = |text: &str| text.bytes().all(|byte| byte.is_ascii_digit());
    let (size, power) = match text.split_once(['e', 'E']) {
        Some((size, power)) => (size, Some(power.strip_prefix(['-', '+']).unwrap_or(power))),
        None => (text, None),
    };
    let (whole, part) = size.split_once('.').unwrap_or((size, ""));
    let some = !whole.is_empty() || !part.is_empty();
    some && digits(whole) && digits(part) && power.is_none_or(|it| !it.is_empty() && digits(it))
}

#[cfg(test)]
mod tests {
    use super::*;

    fn file(lines: &str) -> String {
        format!("time,volts,amperes\n{lines}")
    }

    fn samples(lines: &str) -> Vec<Sample> {
        let rows = parse(file(lines).as_bytes()).unwrap();
        rows.into_iter().map(|row| row.sample).collect()
    }

    fn told(text: &str) -> (usize, String) {
        let bad = parse(text.as_bytes()).unwrap_err();
        (bad.line, bad.what)
    }

    /// The forms of a time are those of [`time_text`], here in quotes and between spaces too.
    #[test]
    fn times() {
        for form in [
            "1985-08-12T01:45:00Z",
            "\"1985-08-12 01:45:00\"",
            " 1985-08-12T01:45:00Z ",
            "-138406500",
        ] {
            assert_eq!(samples(&format!("{form},1,2\n"))[0].time, -138_406_500, "{form}");
        }
        for (form, told_of_it) in [
            ("", "the time is empty"),
            ("-138406500.0", "the time \"-138406500.0\" has a fraction of a second"),
            ("now", "the time \"now\" is not of the form 1985-08-29T13:45:00Z"),
        ] {
            let (line, what) = told(&file(&format!("0,1,2\n{form},1,2\n")));
            assert_eq!(line, 3);
            assert!(what.starts_with(told_of_it), "{form}: {what}");
        }
    }

    /// The nearest binary32, in bits.
    #[test]
    fn numbers() {
        for (form, bits) in [
            ("14.06", 0x4160_f5c3),
            ("+1", 0x3f80_0000),
            ("-0", 0x8000_0000),
            ("0.1", 0x3dcc_cccd),
            (".5", 0x3f00_0000),
            ("5.", 0x40a0_0000),
            ("1e-1", 0x3dcc_cccd),
            ("1E+1", 0x4120_0000),
            // Halfway between two, to the even one; and a little above.
            ("16777217", 0x4b80_0000),
            ("16777217.000000000000000000000000001", 0x4b80_0001),
            ("3.4028235e38", 0x7f7f_ffff),
            ("1e39", 0x7f80_0000),
            ("1e-46", 0),
            ("7e-46", 0),
            ("8e-46", 1),
            ("inf", 0x7f80_0000),
            ("-Infinity", 0xff80_0000),
        ] {
            let sample = samples(&format!("0,{form},2\n"))[0];
            assert_eq!((sample.volts.to_bits(), sample.amperes), (bits, 2.0), "{form}");
        }
        for form in ["", " ", "\"\"", "nan", "NaN", "-nan", "+NAN"] {
            let sample = samples(&format!("0,1,{form}\n"))[0];
            assert!(sample.amperes.is_nan() && sample.volts == 1.0, "{form}");
        }
    }

    #[test]
    fn numbers_that_are_told() {
        for form in [
            "x", "1.2.3", "1e", "e5", ".", "-", "0x10", "1_000", "1 000", "NA", "null", "--1",
            "1e5.0",
        ] {
            let (line, what) = told(&file(&format!("0,1,2\n1,{form},2\n")));
            assert_eq!(line, 3);
            assert!(what.contains("volts") && what.contains("no decimal number"), "{form}: {what}");
        }
    }

    #[test]
    fn lines_and_headers() {
        let rows =
            parse(b"\xef\xbb\xbf\"Time\", Volts ,AMPERES\r\n0,1,2\r\n\r\n1,1,2\n\n").unwrap();
        assert_eq!(rows.iter().map(|row| row.line).collect::<Vec<_>>(), [2, 4]);
        assert_eq!(parse(b"time,volts,amperes\n"), Ok(vec![]));
        for (text, line, part) in [
            ("", 1, "no header, time,volts,amperes"),
            ("\n", 1, "no header"),
            ("time,volts\n0,1", 1, "the header is"),
            ("0,1,2\n", 1, "the header is missing"),
            ("time;volts;amperes\n", 1, "not semicolons"),
            ("time,volts,amps\n", 1, "the header is time,volts,amperes, and here stands"),
            ("time,volts\n", 1, "the header is time,volts,amperes"),
            ("time\tvolts\tamperes\n", 1, "a tab stands here: commas separate"),
            ("time,volts,amperes", 1, "the file ends within this line"),
            ("time,volts,amperes\n0,1,2\n1,1,2", 3, "the file ends within this line"),
            ("time,volts,amperes\n0,1\n", 2, "2 fields, and three are due"),
            ("time,volts,amperes\n0,1,2,\n", 2, "4 fields"),
            ("time,volts,amperes\n0,13,9,0,5\n", 2, "a decimal has a point"),
            ("time,volts,amperes\n0,\"1,2\n", 2, "a quote is not closed"),
            ("time,volts,amperes\n0,1\"2\",3\n", 2, "a quote stands within"),
            ("time,volts,amperes\r0,1,2\r", 1, "ends within"),
            ("time,volts,amperes\r0,1,2\n", 1, "a carriage return stands here"),
            ("time,volts,amperes\r\r\n", 1, "CR CR LF"),
            ("time,volts,amperes\n0,1\0,2\n", 2, "control byte 0x00"),
            ("\u{feff}\u{feff}time,volts,amperes\n", 1, "BOM"),
            ("# remark\ntime,volts,amperes\n", 1, "the header is"),
        ] {
            let (told_line, what) = told(text);
            assert_eq!(told_line, line, "{text:?}: {what}");
            assert!(what.contains(part), "{text:?}: {what}");
        }
        for (bytes, part) in [
            (&b"\xff\xfet\0i\0"[..], "UTF-16"),
            (&b"\x00\x01\x02\n"[..], "this is no text; a file of 16-byte records"),
            (&b"\xffabc\n"[..], "no text"),
        ] {
            let bad = parse(bytes).unwrap_err();
            assert!(bad.line == 1 && bad.what.contains(part), "{}", bad.what);
        }
    }
}
