//! Comparisons of elements files: well-formed texts and damaged ones.

use std::ops::RangeInclusive;

use reference::elements_file::{parse, BYTES_MAX, FIELDS};
use yurdelmiz::{ffi, Fault};

use crate::numbers::library_elements;
use crate::random::Random;
use crate::report::{Report, Text};

/// Bytes that mean something in a file, and neighbours of such.
const BYTES: &[u8] = b"\n\n\r\t\0\x0b\x1f !#..--++/09:eE,_\x7f\x80\xef\xff";

/// A whole number as a file may have it: at an edge of its type, small or any, zeros ahead or not.
fn value(random: &mut Random, range: &RangeInclusive<i64>) -> String {
    let (low, high) = (*range.start(), *range.end());
    let signed = low < 0;
    let value = match random.below(8) {
        0 => low,
        1 => high,
        2 => low + random.between(0, 20),
        3 => high - random.between(0, 20),
        4 => 0,
        _ => {
            let size = ((high as u64) >> random.below(63)) as i64;
            let value = random.between(0, size);
            if signed && random.one_in(2) {
                -value
            } else {
                value
            }
        }
    };
    let minus = value < 0 || value == 0 && signed && random.one_in(2);
    let zeros = if random.one_in(4) { random.index(40) } else { 0 };
    let (sign, zeros) = (if minus { "-" } else { "" }, "0".repeat(zeros));
    format!("{sign}{zeros}{}", value.unsigned_abs())
}

/// A number that no element, or not this one, may have.
fn wrong_value(random: &mut Random, range: &RangeInclusive<i64>) -> String {
    let (low, high) = (i128::from(*range.start()), i128::from(*range.end()));
    let right = value(random, range);
    let beyond = i128::from(random.between(1, 20));
    match random.below(16) {
        0 => (high + 1).to_string(),
        1 => (low - 1).to_string(),
        2 => (high + beyond).to_string(),
        3 => (low - beyond).to_string(),
        4 => (high * 10 + beyond - 10).to_string(),
        // About where a count in 32 or 64 bits begins again.
        5 => ((1_i128 << random.pick(&[31, 32, 33, 63, 64, 65])) + beyond - 10).to_string(),
        6 => {
            let length = 1 + random.index(60);
            (0..length).map(|_| char::from(b'0' + random.below(10) as u8)).collect()
        }
        7 => format!("-{right}"),
        8 => format!("+{right}"),
        9 => {
            let mut decimal = right;
            decimal.insert(random.index(decimal.len() + 1), '.');
            decimal
        }
        10 => format!("{right}.0"),
        11 => format!("{right}e3"),
        12 => format!(" {right}"),
        13 => format!("{right} "),
        14 => format!("{:x}", random.u32()),
        _ => {
            random.pick(&["", "-", "--1", "-+1", ".", "-.", "1 2", "1-", "1,000", "#"]).to_string()
        }
    }
}

/// A comment, of any bytes but LF, or an empty line.
fn skipped_line(random: &mut Random) -> Vec<u8> {
    if random.one_in(3) {
        return Vec::new();
    }
    let length = random.index(12);
    let bytes = if random.one_in(2) {
        random.bytes(length)
    } else {
        (0..length).map(|_| random.pick(BYTES)).collect()
    };
    b"#".iter().copied().chain(bytes.into_iter().filter(|&byte| byte != b'\n')).collect()
}

/// The lines of a well-formed file, without LF, with comments and empty lines or without.
fn lines(random: &mut Random) -> Vec<Vec<u8>> {
    let skipping = random.one_in(2);
    let mut lines = Vec::new();
    for (name, range) in &FIELDS {
        while skipping && random.one_in(4) {
            lines.push(skipped_line(random));
        }
        lines.push(format!("{name} {}", value(random, range)).into_bytes());
    }
    while skipping && random.one_in(2) {
        lines.push(skipped_line(random));
    }
    lines
}

/// The line of the element of this number with something wrong, at times in several ways.
fn wrong_line(random: &mut Random, element: usize) -> Vec<u8> {
    let (name, range) = &FIELDS[element];
    let mut name = name.to_string();
    match random.below(20) {
        0 => name.truncate(random.index(name.len())),
        1 => name.push(random.pick(&['s', '_', '1', ' ', ':', '=', '\t'])),
        2 => name.insert(0, random.pick(&[' ', '\t', '\u{feff}', '-', 'x'])),
        3 => name = name.to_uppercase(),
        4 => name = name.replace('_', random.pick(&[" ", "-", "", "__"])),
        _ => {}
    }
    let gap = match random.below(10) {
        0 => random.pick(&["", "\t", "  ", " \t", "=", ": ", " ="]),
        _ => " ",
    };
    let value = if random.one_in(4) { value(random, range) } else { wrong_value(random, range) };
    let end = match random.below(6) {
        0 => random.pick(&["\r", " ", "\t", "#", " # none", "x", "\u{a0}"]),
        _ => "",
    };
    format!("{name}{gap}{value}{end}").into_bytes()
}

/// Damages one line, or the order of the lines.
fn damage_lines(random: &mut Random, lines: &mut Vec<Vec<u8>>) {
    let (one, other) = (random.index(lines.len()), random.index(lines.len()));
    match random.below(18) {
        0 => lines.swap(one, other),
        1 if lines.len() > 1 => drop(lines.remove(one)),
        2 => lines.insert(other, lines[one].clone()),
        3 => {
            let line = random.pick(&[&b" "[..], b" # none", b"\t", b"\r", b"x", b"\xef\xbb\xbf#"]);
            lines.insert(other, line.to_vec());
        }
        4 => lines.push(wrong_line(random, FIELDS.len() - 1)),
        5 => lines.iter_mut().for_each(|line| line.push(b'\r')),
        6 => lines.truncate(one + 1),
        7 => {
            let line = &mut lines[one];
            line.truncate(random.index(line.len() + 1));
        }
        8 => lines[one].push(random.pick(BYTES)),
        _ => {
            let element = random.index(FIELDS.len());
            let begin = format!("{} ", FIELDS[element].0);
            let at = lines.iter().position(|line| line.starts_with(begin.as_bytes()));
            lines[at.unwrap_or(one)] = wrong_line(random, element);
        }
    }
}

/// Changes, inserts or removes a byte.
fn damage_byte(random: &mut Random, text: &mut Vec<u8>, at: usize) {
    let byte = if random.one_in(4) { random.u64() as u8 } else { random.pick(BYTES) };
    match random.below(3) {
        0 => text.insert(at, byte),
        _ if at == text.len() => text.push(byte),
        1 => text[at] = byte,
        _ => drop(text.remove(at)),
    }
}

/// Brings the file to about the most bytes that it may have.
fn lengthen(random: &mut Random, text: &mut Vec<u8>) {
    let length = BYTES_MAX + random.index(4) - 1;
    let more = length.saturating_sub(text.len());
    let filler = match random.below(4) {
        0 => vec![b'\n'; more],
        1 => [&b"#"[..], &vec![b'x'; more.saturating_sub(2)], b"\n"].concat(),
        2 => vec![random.pick(BYTES); more],
        _ => vec![b'0'; more],
    };
    // Ahead of the file, behind it, or as zeros of its first value.
    let at = match filler.first() {
        Some(b'0') => text.iter().position(|&byte| byte == b' ').map_or(0, |space| space + 1),
        _ => random.pick(&[0, text.len()]),
    };
    text.splice(at..at, filler);
}

/// A text: a well-formed file, or a damaged one.
pub fn text(random: &mut Random) -> Vec<u8> {
    let mut lines = lines(random);
    let damage = random.below(16);
    if (4..9).contains(&damage) {
        damage_lines(random, &mut lines);
        while random.one_in(4) {
            damage_lines(random, &mut lines);
        }
    }
    let mut text: Vec<u8> = lines.iter().flat_map(|line| [line, &b"\n"[..]].concat()).collect();
    if (7..12).contains(&damage) {
        // Further damage stands near the first, where two faults meet in a line.
        let mut at = random.index(text.len() + 1);
        damage_byte(random, &mut text, at);
        while random.one_in(2) {
            at = (at + random.index(8)).min(text.len());
            damage_byte(random, &mut text, at);
        }
    }
    match damage {
        12 => drop(text.pop()),
        13 | 6 => text.truncate(random.index(text.len() + 1)),
        14 => match random.below(4) {
            0 => text.clear(),
            1 => text.retain(|&byte| byte == b'\n' || byte == b'#'),
            2 => text = skipped_line(random),
            _ => {
                let length = random.index(40);
                text = (0..length).map(|_| random.pick(BYTES)).collect();
            }
        },
        15 if random.one_in(8) => lengthen(random, &mut text),
        _ => {}
    }
    text
}

/// The fault's status in the C interface.
fn number(fault: Fault) -> u32 {
    match fault {
        Fault::Name => ffi::MALFORMED_NAME,
        Fault::Extra => ffi::MALFORMED_EXTRA,
        Fault::ControlByte => ffi::MALFORMED_CONTROL_BYTE,
        Fault::DecimalPoint => ffi::MALFORMED_DECIMAL_POINT,
        Fault::NotWhole => ffi::MALFORMED_NOT_WHOLE,
        Fault::TooLarge => ffi::MALFORMED_TOO_LARGE,
        Fault::Unended => ffi::MALFORMED_UNENDED,
        Fault::Missing => ffi::MALFORMED_MISSING,
        Fault::TooLong => ffi::MALFORMED_TOO_LONG,
    }
}

pub fn elements(random: &mut Random, report: &mut Report) {
    let text = text(random);
    let input = Text(&text);
    let reference = parse(&text)
        .map(|elements| library_elements(&elements))
        .map_err(|malformed| (malformed.fault.number(), (malformed.line, malformed.element)));

    let lent = text.clone();
    let mut answer = [0; ffi::ELEMENTS_BYTES].map(|_: u8| random.u64() as u8);
    let before = answer;
    // SAFETY: the slices are `lent` and `answer`.
    let result = unsafe {
        ffi::yurdelmiz_elements(lent.as_ptr(), lent.len(), answer.as_mut_ptr(), answer.len())
    };
    let place = (result >> 32) as u32;
    let through_c = match result as u32 {
        0 => Ok(yurdelmiz::Elements::from_bytes(&answer)),
        status => Err((status, (place & 0xff_ffff, place >> 24))),
    };
    if through_c.is_err() {
        report.bytes(&input, "answer after a fault", &answer, &before);
    }
    report.bytes(&input, "text", &lent, &text);

    let binding = yurdelmiz::parse_elements(&text).map_err(|malformed| {
        let element = malformed.element.map_or(FIELDS.len() as u32, |element| element as u32);
        (number(malformed.fault), (malformed.line, element))
    });
    report.equal(&input, "binding", binding, through_c);
    report.outcomes(&input, through_c, reference);
}
