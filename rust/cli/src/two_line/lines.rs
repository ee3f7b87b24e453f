//! Which lines of a file are the two. What they hold is the proved reader's question.

use std::path::Path;

use yurdelmiz::{Element, TwoLineField};

use super::beside::NAMES;
use crate::elements_input::LONGEST_TEXT;
use crate::failure::Failure;
use crate::malformed::{self, Swapped};
use crate::quote;

pub const CR_LF: &str =
    "the line ends with CR LF: convert the file, so that each ends with LF alone";

/// A line of a file, without its LF, and its number from 1.
#[derive(Clone, Debug, PartialEq, Eq)]
pub struct Line {
    pub number: usize,
    pub bytes: Vec<u8>,
}

/// The first line that is none of a name and the two.
#[derive(Debug, PartialEq, Eq)]
pub struct BadLine {
    pub line: usize,
    /// What is wrong, and what to do.
    pub what: String,
}

impl BadLine {
    /// File, line, what is wrong and what stands there.
    pub fn failure(&self, path: &Path, text: &[u8], swapped: Swapped) -> Failure {
        let found = malformed::found(text, self.line);
        let hint = match swapped.hint(path, text) {
            Some(hint) => format!("; {hint}"),
            None => String::new(),
        };
        let (path, BadLine { line, what }) = (quote::path(path), self);
        Failure::refused(format!("{path}, line {line}: {what}; {found}{hint}"))
    }
}

/// The lines that are not blank.
fn lines_of(text: &[u8]) -> Vec<Line> {
    let lines = text.split(|byte| *byte == b'\n').zip(1..);
    let held = lines.filter(|(line, _)| line.iter().any(|byte| *byte != b' '));
    held.map(|(line, number)| Line { number, bytes: line.to_vec() }).collect()
}

/// The number of the line behind the last.
fn end_of(text: &[u8]) -> usize {
    let ended = text.is_empty() || text.ends_with(b"\n");
    text.iter().filter(|byte| **byte == b'\n').count() + if ended { 1 } else { 2 }
}

/// Whether a line and the next begin as the two do.
fn begin_a_set(lines: &[Line]) -> bool {
    matches!(lines, [one, two, ..] if one.bytes.starts_with(b"1 ") && two.bytes.starts_with(b"2 "))
}

/// Whether a file that was taken for an elements file has two lines of a set, one of them of its length.
pub fn looks_like_two_lines(text: &[u8]) -> bool {
    let whole = |line: &Line| {
        let bytes = line.bytes.strip_suffix(b"\r").unwrap_or(&line.bytes);
        bytes.len() == TwoLineField::COLUMNS
    };
    lines_of(text).windows(2).any(|pair| begin_a_set(pair) && pair.iter().any(whole))
}

/// The two lines of a file, ahead of which a line with a name may stand.
pub fn two_lines(text: &[u8]) -> Result<[Line; 2], BadLine> {
    if text.len() > LONGEST_TEXT {
        let what =
            "the file has more than 65,535 bytes: it is to have two lines, or a name and two lines";
        return Err(BadLine { line: 1, what: what.to_owned() });
    }
    let lines = lines_of(text);
    split(&lines, end_of(text)).map_err(|bad| in_an_elements_file(&lines).unwrap_or(bad))
}

fn split(lines: &[Line], end: usize) -> Result<[Line; 2], BadLine> {
    let named = match lines {
        [name, one] => {
            let numbered = matches!(name.bytes[..], [b'1' | b'2', b' ', ..]);
            one.bytes.starts_with(b"1 ") && !numbered
        }
        _ => lines.len() > 2 && !begin_a_set(lines),
    };
    match &lines[usize::from(named)..] {
        [one, two] => Ok([one.clone(), two.clone()]),
        [_, _, further, ..] => {
            Err(BadLine { line: further.number, what: further_line(lines, further) })
        }
        [one] => Err(one_line(one, end)),
        [] => {
            let what = "the two lines are missing: the file ends before them";
            Err(BadLine { line: end, what: what.to_owned() })
        }
    }
}

/// A line behind the two.
fn further_line(lines: &[Line], further: &Line) -> String {
    let sets = lines.windows(2).filter(|pair| begin_a_set(pair)).count();
    if further.bytes == b"\r" {
        CR_LF.to_owned()
    } else if sets > 1 {
        "a further set stands here, and which one is meant is not guessed: keep one set in the file"
            .to_owned()
    } else {
        "only a name may stand ahead of the two lines, and nothing behind them".to_owned()
    }
}

/// A file with one line, or with a name and one line.
fn one_line(one: &Line, end: usize) -> BadLine {
    let bare = one.bytes.strip_suffix(b"\r").unwrap_or(&one.bytes);
    let (line, what) = if bare.contains(&b'\r') {
        (
            one.number,
            "the lines end with CR alone: convert the file, so that each ends with LF alone",
        )
    } else if bare.starts_with(b"1 ") {
        (end, "the second of the two lines is missing: the file ends before it")
    } else if bare.starts_with(b"2 ") {
        (one.number, "the first of the two lines is missing: it begins with \"1 \"")
    } else {
        (one.number, "the two lines are missing: one begins with \"1 \", the other with \"2 \"")
    };
    BadLine { line, what: what.to_owned() }
}

/// The first line that is one of an elements file.
fn in_an_elements_file(lines: &[Line]) -> Option<BadLine> {
    let is_element = |line: &&Line| {
        Element::ALL.iter().any(|it| line.bytes.starts_with(format!("{} ", it.name()).as_bytes()))
    };
    let line = lines.iter().find(is_element)?.number;
    let what = format!(
        "this is a line of an elements file, which has its axis and rates: leave out {NAMES}"
    );
    Some(BadLine { line, what })
}

#[cfg(test)]
mod tests {
    use super::*;

    const ONE: &str = "1 14129U 83058B   85224.07291667  .00000000  00000-0  00000-0 0    14";
    const TWO: &str = "2 14129  25.6000 121.2000 6100000  40.1000 129.3000  2.05890000 16275";

    fn numbers(text: &str) -> Result<[usize; 2], BadLine> {
        let lines = two_lines(text.as_bytes())?;
        assert_eq!(lines[0].bytes, ONE.as_bytes());
        assert_eq!(lines[1].bytes, TWO.as_bytes());
        Ok(lines.map(|line| line.number))
    }

    #[test]
    fn lines_that_are_found() {
        for (text, told) in [
            (format!("{ONE}\n{TWO}\n"), [1, 2]),
            (format!("{ONE}\n{TWO}"), [1, 2]),
            (format!("{ONE}\n{TWO}\n\n   \n\n"), [1, 2]),
            (format!("\n{ONE}\n\n{TWO}\n"), [2, 4]),
            (format!("OSCAR 10\n{ONE}\n{TWO}\n"), [2, 3]),
            (format!("0 OSCAR 10\n{ONE}\n{TWO}"), [2, 3]),
            (format!("1 OSCAR\n{ONE}\n{TWO}"), [2, 3]),
            (format!("2 OSCAR\n\n{ONE}\n{TWO}"), [3, 4]),
            (format!("node 1\n{ONE}\n{TWO}"), [2, 3]),
        ] {
            assert_eq!(numbers(&text), Ok(told), "{text}");
        }
        // Any bytes: what they hold is not looked at here.
        let lines = two_lines(b"\xff\0\n\x80\r\n\xfe").unwrap();
        assert_eq!(lines[0], Line { number: 2, bytes: b"\x80\r".to_vec() });
        assert_eq!(lines[1], Line { number: 3, bytes: b"\xfe".to_vec() });
        // Two lines are the two, also where one does not begin as it is to.
        for text in ["2 x\n1 x\n", "x\ny\n", "1 x\n1 y\n", "1 x\nOSCAR\n"] {
            assert_eq!(
                two_lines(text.as_bytes()).unwrap().map(|line| line.number),
                [1, 2],
                "{text}"
            );
        }
    }

    #[test]
    fn lines_that_are_not() {
        let set = format!("{ONE}\n{TWO}\n");
        for (text, line, told) in [
            (String::new(), 1, "the two lines are missing: the file ends"),
            ("\n \n".to_owned(), 3, "the two lines are missing: the file ends"),
            (format!("{ONE}\n"), 2, "the second of the two lines is missing"),
            (ONE.to_owned(), 2, "the second of the two lines is missing"),
            (format!("OSCAR 10\n{ONE}\n\n"), 4, "the second of the two lines is missing"),
            ("OSCAR 10\n".to_owned(), 1, "the two lines are missing: one begins"),
            (format!("{TWO}\n"), 1, "the first of the two lines is missing"),
            (format!("{ONE}\r{TWO}\r"), 1, "the lines end with CR alone"),
            (format!("{set}x\n"), 3, "only a name may stand ahead"),
            (format!("OSCAR 10\n{set}x"), 4, "only a name may stand ahead"),
            (format!("{set}\r\n"), 3, "the line ends with CR LF"),
            (format!("{set}{set}"), 3, "a further set stands here"),
            (format!("{set}\nOSCAR 10\n{set}"), 4, "a further set stands here"),
            (format!("A\n{set}B\n{set}"), 4, "a further set stands here"),
            (format!("{set}{}", " ".repeat(70_000)), 1, "the file has more than 65,535 bytes"),
            (
                "# x\neccentricity 1\nnode 2\nepoch 3\n".to_owned(),
                2,
                "this is a line of an elements",
            ),
        ] {
            let bad = numbers(&text).unwrap_err();
            assert_eq!(bad.line, line, "{text}");
            assert!(bad.what.starts_with(told), "{}", bad.what);
        }
    }

    #[test]
    fn files_that_look_like_a_set() {
        for text in [
            format!("{ONE}\n{TWO}\n"),
            format!("{ONE}\r\n{TWO}\r\n"),
            format!("# x\nOSCAR 10\n{ONE}\n\n{}\n", &TWO[..60]),
            format!("{} \n{TWO}", &ONE[..50]),
        ] {
            assert!(looks_like_two_lines(text.as_bytes()), "{text}");
        }
        let elements = include_str!("../../../../examples/oscar10/elements.txt");
        for text in [elements, "", "1 a\n2 b\n", TWO, &format!("{TWO}\n{ONE}\n")] {
            assert!(!looks_like_two_lines(text.as_bytes()), "{text}");
        }
    }
}
