//! A time as a person writes it: a date and a time of day in UTC, or whole seconds from 1989-12-31.

use crate::date::Civil;

const WHOLE: &str = "write whole seconds";

/// The time, or what is wrong with the text, to be said behind it.
pub fn read(text: &str) -> Result<i64, String> {
    let digits = text.strip_prefix('-').unwrap_or(text);
    if !digits.is_empty() && digits.bytes().all(|byte| byte.is_ascii_digit()) {
        return text.parse().map_err(|_| "does not fit 64 bits".to_owned());
    }
    let fraction = digits.split_once(['.', ',']).is_some_and(|(whole, part)| {
        [whole, part].iter().all(|side| side.bytes().all(|byte| byte.is_ascii_digit()))
    });
    if fraction {
        return Err(format!("has a fraction of a second: {WHOLE}"));
    }
    date_time_of(text)
}

/// `1985-08-29T13:45:00Z`, with a space in place of T, or without Z.
fn date_time_of(text: &str) -> Result<i64, String> {
    let form = || "is not of the form 1985-08-29T13:45:00Z, nor whole seconds".to_owned();
    let Some((start, rest)) = text.split_at_checked(19) else {
        return Err(short_of(text).unwrap_or_else(form));
    };
    let civil = civil_of(start.as_bytes()).ok_or_else(form)?;
    if rest.starts_with(['.', ',']) {
        return Err(format!("has a fraction of a second: {WHOLE}"));
    }
    if !matches!(rest, "" | "Z" | "+00:00") {
        return Err(if is_zone(rest) {
            format!("is in another zone, {rest}: write it in UTC")
        } else {
            form()
        });
    }
    if civil.second == 60 {
        return Err("is a leap second, and a day has 86,400 here: write :59 or the next :00".into());
    }
    civil.time().ok_or_else(|| "is no date of the calendar or no time of day".to_owned())
}

/// Whether it reads as how far a zone is from UTC.
fn is_zone(text: &str) -> bool {
    let hours = text.strip_prefix(['+', '-']);
    hours.is_some_and(|it| it.bytes().all(|byte| byte.is_ascii_digit() || byte == b':'))
}

/// What a date lacks that ends too soon.
fn short_of(text: &str) -> Option<String> {
    let full = "0000-00-00T00:00:00";
    let end = text.strip_suffix('Z').unwrap_or(text);
    let (at, what) = match end.len() {
        10 => (10, "has no time of day: write it to the second"),
        16 => (16, "has no seconds: write it to the second"),
        _ => return None,
    };
    civil_of(format!("{end}{}", &full[at..]).as_bytes()).map(|_| what.to_owned())
}

/// The numbers of `1985-08-29T13:45:00`, whatever date they are.
fn civil_of(text: &[u8]) -> Option<Civil> {
    let number = |from: usize, to: usize| {
        let digits = text.get(from..to)?;
        digits
            .iter()
            .all(u8::is_ascii_digit)
            .then(|| digits.iter().fold(0, |number, digit| 10 * number + i64::from(digit - b'0')))
    };
    let marks = [(4, "-"), (7, "-"), (10, "T "), (13, ":"), (16, ":")];
    let set =
        marks.iter().all(|(at, mark)| text.get(*at).is_some_and(|b| mark.as_bytes().contains(b)));
    if !set || text.len() != 19 {
        return None;
    }
    Some(Civil {
        year: number(0, 4)?,
        month: number(5, 7)?,
        day: number(8, 10)?,
        hour: number(11, 13)?,
        minute: number(14, 16)?,
        second: number(17, 19)?,
    })
}

#[cfg(test)]
mod tests {
    use super::*;

    #[test]
    fn times() {
        for (text, time) in [
            ("1985-08-12T01:45:00Z", -138_406_500),
            ("1985-08-12T01:45:00", -138_406_500),
            ("1985-08-12 01:45:00", -138_406_500),
            ("1985-08-12 01:45:00Z", -138_406_500),
            ("1985-08-12T01:45:00+00:00", -138_406_500),
            ("-138406500", -138_406_500),
            ("-0138406500", -138_406_500),
            ("0", 0),
            ("-0", 0),
            ("9223372036854775807", i64::MAX),
            ("-9223372036854775808", i64::MIN),
            ("1900-02-28T23:59:59Z", -2_834_956_801),
            ("0000-01-01T00:00:00Z", -62_798_284_800),
            ("9999-12-31T23:59:59Z", 252_771_235_199),
        ] {
            assert_eq!(read(text), Ok(time), "{text}");
        }
    }

    #[test]
    fn times_that_are_told() {
        for (text, part) in [
            ("1985-08-12T01:45:00.5Z", "has a fraction of a second"),
            ("1985-08-12T01:45:00.000Z", "has a fraction of a second"),
            ("1985-08-12 01:45:00.25", "has a fraction of a second"),
            ("-138406500.0", "has a fraction of a second"),
            ("1985-08-12T01:45:60Z", "is a leap second"),
            ("1985-08-12T01:45:00+02:00", "is in another zone, +02:00: write it in UTC"),
            ("1985-08-12T01:45:00-00:00", "is in another zone"),
            ("1985-08-12", "has no time of day"),
            ("1985-08-12T01:45", "has no seconds"),
            ("1985-08-12T01:45Z", "has no seconds"),
            ("1985-02-29T00:00:00Z", "is no date of the calendar"),
            ("1985-13-01T00:00:00Z", "is no date of the calendar"),
            ("1985-08-12T24:00:00Z", "is no date of the calendar or no time of day"),
            ("1985-08-12T01:45:61Z", "is no date of the calendar or no time of day"),
            ("12.08.1985 01:45:00", "is not of the form"),
            ("1985/08/12 01:45:00", "is not of the form"),
            ("19850812T014500Z", "is not of the form"),
            ("1985-08-12T01:45:00 UTC", "is not of the form"),
            ("1985-08-12T01:45:00+\u{1b}[2J", "is not of the form"),
            ("1985-08-12T01:45:00z", "is not of the form"),
            ("9223372036854775808", "does not fit"),
            ("+5", "is not of the form"),
            ("1e5", "is not of the form"),
            ("now", "is not of the form"),
            ("-", "is not of the form"),
            ("1985-08-12T01:45:0°", "is not of the form"),
            ("", "is not of the form"),
        ] {
            let told = read(text).unwrap_err();
            assert!(told.starts_with(part), "{text}: {told}");
        }
    }
}
