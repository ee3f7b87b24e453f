//! Elements files, as docs/FORMATS.md describes them: read line by line.
//!
//! The first fault of a line is the one that stands furthest ahead in it. A value is too large by its
//! digits, whatever stands behind them; a line that the end of the file cuts short is `Unended` where
//! nothing in it is wrong so far.

use std::ops::RangeInclusive;

use crate::orbit::Elements;

/// The most bytes of a file.
pub const BYTES_MAX: usize = 65_535;

/// What is wrong with a line, with the status of the C interface.
#[derive(Clone, Copy, Debug, PartialEq, Eq)]
pub enum Fault {
    /// It does not begin with the name that is due and a space.
    Name = 101,
    /// It is neither comment nor empty, and stands after the last element.
    Extra = 102,
    /// It has a byte below 32 outside a comment.
    ControlByte = 103,
    /// It has a decimal point in its value.
    DecimalPoint = 104,
    /// It has something else in its value than digits, or none.
    NotWhole = 105,
    /// It has a value that does not fit the element's type.
    TooLarge = 106,
    /// It has no LF.
    Unended = 107,
    /// It is past the end of the file, before the last element.
    Missing = 108,
    /// The file has more than 65,535 bytes.
    TooLong = 109,
}

impl Fault {
    /// The status of the C interface.
    pub fn number(self) -> u32 {
        self as u32
    }
}

/// The first fault of a file.
#[derive(Clone, Copy, Debug, PartialEq, Eq)]
pub struct Malformed {
    pub fault: Fault,
    /// From 1.
    pub line: u32,
    /// The number from 0 of the element that was due, 12 behind the last.
    pub element: u32,
}

const U32: RangeInclusive<i64> = 0..=u32::MAX as i64;
const I32: RangeInclusive<i64> = i32::MIN as i64..=i32::MAX as i64;
const I64: RangeInclusive<i64> = i64::MIN..=i64::MAX;

/// The names in their order, and what the types hold.
pub const FIELDS: [(&str, RangeInclusive<i64>); 12] = [
    ("eccentricity", U32),
    ("semi_major_axis", U32),
    ("inclination", U32),
    ("node", U32),
    ("argument_of_perigee", U32),
    ("mean_anomaly", U32),
    ("mean_motion", U32),
    ("node_rate", I32),
    ("perigee_rate", I32),
    ("epoch_revolution", U32),
    ("epoch", I64),
    ("half_mean_motion_derivative", I32),
];

/// Reads a file.
pub fn parse(text: &[u8]) -> Result<Elements, Malformed> {
    if text.len() > BYTES_MAX {
        return Err(Malformed { fault: Fault::TooLong, line: 1, element: 0 });
    }
    let mut values = Vec::new();
    let mut lines = 0;
    for line in text.split_inclusive(|&byte| byte == b'\n') {
        lines += 1;
        let element = values.len() as u32;
        let value = parse_line(line, values.len());
        values.extend(value.map_err(|fault| Malformed { fault, line: lines, element })?);
    }

    let element = values.len() as u32;
    let values: [i64; FIELDS.len()] = values.try_into().map_err(|_| Malformed {
        fault: Fault::Missing,
        line: lines + 1,
        element,
    })?;
    Ok(elements_of(values))
}

/// The elements of the values in the order of the file, each within its type.
fn elements_of(values: [i64; FIELDS.len()]) -> Elements {
    Elements {
        eccentricity: values[0] as u32,
        semi_major_axis: values[1] as u32,
        inclination: values[2] as u32,
        node: values[3] as u32,
        argument_of_perigee: values[4] as u32,
        mean_anomaly: values[5] as u32,
        mean_motion: values[6] as u32,
        node_rate: values[7] as i32,
        perigee_rate: values[8] as i32,
        epoch_revolution: values[9] as u32,
        epoch: values[10],
        half_mean_motion_derivative: values[11] as i32,
    }
}

/// The value in a line where the element of number `due` is, or none in a comment or empty line.
fn parse_line(line: &[u8], due: usize) -> Result<Option<i64>, Fault> {
    let content = line.strip_suffix(b"\n");
    let ended = if content.is_some() { Ok(()) } else { Err(Fault::Unended) };
    let content = content.unwrap_or(line);

    let Some(&first) = content.first() else {
        return Ok(None);
    };
    if first == b'#' {
        return ended.and(Ok(None));
    }
    let Some((name, range)) = FIELDS.get(due) else {
        return Err(wrong_byte(first, Fault::Extra));
    };
    let begin = format!("{name} ");
    let Some(value) = content.strip_prefix(begin.as_bytes()) else {
        let alike = content.iter().zip(begin.bytes()).take_while(|(is, due)| *is == due).count();
        return Err(match content.get(alike) {
            Some(&byte) => wrong_byte(byte, Fault::Name),
            None => ended.err().unwrap_or(Fault::Name),
        });
    };

    let value = parse_value(value, range)?;
    ended?;
    value.map(Some).ok_or(Fault::NotWhole)
}

/// A value within its range, or none where no digit stands.
fn parse_value(value: &[u8], range: &RangeInclusive<i64>) -> Result<Option<i64>, Fault> {
    let signed = *range.start() < 0;
    let minus = usize::from(signed && value.starts_with(b"-"));
    let digits = value[minus..].iter().take_while(|byte| byte.is_ascii_digit()).count();
    let (number, rest) = value.split_at(minus + digits);
    let number = match digits {
        0 => None,
        _ => {
            let number = String::from_utf8_lossy(number).parse().ok();
            Some(number.filter(|number| range.contains(number)).ok_or(Fault::TooLarge)?)
        }
    };
    match rest.first() {
        Some(b'.') => Err(Fault::DecimalPoint),
        Some(&byte) => Err(wrong_byte(byte, Fault::NotWhole)),
        None => Ok(number),
    }
}

/// The fault of a byte that may not stand where it does.
fn wrong_byte(byte: u8, otherwise: Fault) -> Fault {
    if byte < 32 {
        Fault::ControlByte
    } else {
        otherwise
    }
}

#[cfg(test)]
mod tests {
    use super::*;

    const OSCAR_10: &str = "eccentricity 6100000
semi_major_axis 26100000
inclination 305419896
node 1445972322
argument_of_perigee 478411634
mean_anomaly 1542609087
mean_motion 205890000
node_rate -1724
perigee_rate 2834
epoch_revolution 1627
epoch -138406500
half_mean_motion_derivative -35
";

    /// The fault, line and element of Oscar-10's file with the one `old` replaced.
    fn fault(old: &str, new: &str) -> (Fault, u32, u32) {
        assert_eq!(OSCAR_10.matches(old).count(), 1, "{old}");
        malformed(OSCAR_10.replace(old, new).as_bytes())
    }

    fn malformed(text: &[u8]) -> (Fault, u32, u32) {
        let Malformed { fault, line, element } = parse(text).expect_err("a fault");
        (fault, line, element)
    }

    #[test]
    fn values_of_the_page() {
        let elements = Elements {
            eccentricity: 6_100_000,
            semi_major_axis: 26_100_000,
            inclination: 305_419_896,
            node: 1_445_972_322,
            argument_of_perigee: 478_411_634,
            mean_anomaly: 1_542_609_087,
            mean_motion: 205_890_000,
            node_rate: -1_724,
            perigee_rate: 2_834,
            epoch_revolution: 1_627,
            epoch: -138_406_500,
            half_mean_motion_derivative: -35,
        };
        assert_eq!(parse(OSCAR_10.as_bytes()), Ok(elements));

        let between = OSCAR_10.replace('\n', "\n#\t\r\0\u{e9}\n\n");
        assert_eq!(parse(between.as_bytes()), Ok(elements));
        let zeros = OSCAR_10.replace("node 1", "node 00000000001").replace(" -1", " -000000000001");
        assert_eq!(parse(zeros.as_bytes()), Ok(elements));
    }

    #[test]
    fn edges_of_the_types() {
        let cases = [
            ("node 1445972322", "node 4294967295", "node 4294967296", 3),
            ("-1724", "-2147483648", "-2147483649", 7),
            ("2834", "2147483647", "2147483648", 8),
            ("-138406500", "-9223372036854775808", "-9223372036854775809", 10),
            ("-138406500", "9223372036854775807", "9223372036854775808", 10),
            ("-35", "-2147483648", "-2147483649", 11),
            ("-35", "2147483647", "2147483648", 11),
        ];
        for (old, edge, beyond, element) in cases {
            assert!(parse(OSCAR_10.replace(old, edge).as_bytes()).is_ok(), "{edge}");
            assert_eq!(fault(old, beyond), (Fault::TooLarge, element + 1, element), "{beyond}");
        }
    }

    #[test]
    fn faults_of_a_line() {
        assert_eq!(fault("node 1445972322\n", "# none\n"), (Fault::Name, 5, 3));
        assert_eq!(fault("inclination", " inclination"), (Fault::Name, 3, 2));
        assert_eq!(fault("inclination ", "inclination\t"), (Fault::ControlByte, 3, 2));
        assert_eq!(fault("26100000", "26.1"), (Fault::DecimalPoint, 2, 1));
        for value in ["", "+5", "-5", "5 ", "5e3", "0x5", "5,000", "\u{665}"] {
            assert_eq!(fault("26100000", value), (Fault::NotWhole, 2, 1), "{value}");
        }
        assert_eq!(fault("-1724", "-"), (Fault::NotWhole, 8, 7));
        for value in ["4294967296.5", "4294967296x", "4294967296\r"] {
            assert_eq!(fault("26100000", value), (Fault::TooLarge, 2, 1), "{value}");
        }
        assert_eq!(fault("2834\n", "2834\r\n"), (Fault::ControlByte, 9, 8));
        assert_eq!(fault("-35\n", "-35\nepoch 0\n"), (Fault::Extra, 13, 12));
    }

    #[test]
    fn faults_of_the_file() {
        assert_eq!(malformed(b""), (Fault::Missing, 1, 0));
        assert_eq!(malformed(b"\n# none\n"), (Fault::Missing, 3, 0));
        assert_eq!(malformed(b"eccen"), (Fault::Unended, 1, 0));
        assert_eq!(malformed(b"eccentricity 1\nsemi_major_axis "), (Fault::Unended, 2, 1));
        assert_eq!(fault("-35\n", "-35"), (Fault::Unended, 12, 11));
        assert_eq!(fault("-35\n", "-35\n# none"), (Fault::Unended, 13, 12));
        assert_eq!(fault("half_mean_motion_derivative -35\n", ""), (Fault::Missing, 12, 11));

        let mut longest = OSCAR_10.as_bytes().to_vec();
        longest.resize(BYTES_MAX, b'\n');
        assert!(parse(&longest).is_ok());
        longest.push(b'\n');
        assert_eq!(malformed(&longest), (Fault::TooLong, 1, 0));
    }
}
