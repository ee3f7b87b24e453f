//! `--axis METRES --node-rate N --perigee-rate N`: what two-line elements do not have, and whoever labels says.

use yurdelmiz::Element;

use crate::arguments::{Arguments, Command, Flag};
use crate::failure::Failure;
use crate::{malformed, quote};

const AXIS: &str = "--axis";
const NODE_RATE: &str = "--node-rate";
const PERIGEE_RATE: &str = "--perigee-rate";

pub const AXIS_FLAG: Flag = Flag { name: AXIS, value: Some("METRES") };
pub const NODE_RATE_FLAG: Flag = Flag { name: NODE_RATE, value: Some("N") };
pub const PERIGEE_RATE_FLAG: Flag = Flag { name: PERIGEE_RATE, value: Some("N") };

/// The options in a message.
pub const NAMES: &str = "--axis, --node-rate and --perigee-rate";

/// The option that has an element.
pub fn option(element: Element) -> Option<&'static str> {
    match element {
        Element::SemiMajorAxis => Some(AXIS),
        Element::NodeRate => Some(NODE_RATE),
        Element::PerigeeRate => Some(PERIGEE_RATE),
        _ => None,
    }
}

#[derive(Clone, Copy, Debug, PartialEq, Eq)]
pub struct AxisAndRates {
    /// In metres.
    pub semi_major_axis: u32,
    /// In 10^-4 degree a day.
    pub node_rate: i32,
    /// In 10^-4 degree a day.
    pub perigee_rate: i32,
}

impl AxisAndRates {
    /// What the options say, all of them, or none where none is given.
    pub fn given(
        command: &Command,
        arguments: &Arguments,
    ) -> Result<Option<AxisAndRates>, Failure> {
        let names = [AXIS, NODE_RATE, PERIGEE_RATE];
        let missing: Vec<&str> = names.into_iter().filter(|it| !arguments.has(it)).collect();
        if missing.len() == names.len() {
            return Ok(None);
        }
        if !missing.is_empty() {
            let verb = if missing.len() == 1 { "is" } else { "are" };
            let (name, missing) = (command.name, missing.join(" and "));
            let mistake =
                format!("{name}: {missing} {verb} missing: two-line elements need {NAMES}");
            return Err(command.mistake(mistake));
        }
        Ok(Some(AxisAndRates {
            semi_major_axis: number(command, arguments, Element::SemiMajorAxis)?,
            node_rate: number(command, arguments, Element::NodeRate)?,
            perigee_rate: number(command, arguments, Element::PerigeeRate)?,
        }))
    }
}

fn number<N: TryFrom<i64>>(
    command: &Command,
    arguments: &Arguments,
    element: Element,
) -> Result<N, Failure> {
    let name = option(element).unwrap_or_default();
    let text = arguments.value(name).unwrap_or_default().to_string_lossy();
    whole_number(element, &text)
        .map_err(|what| command.mistake(format!("{name} {} {what}", quote::word(&text))))
}

/// A number as an elements file has it, or what is wrong with it.
fn whole_number<N: TryFrom<i64>>(element: Element, text: &str) -> Result<N, String> {
    let signed = element != Element::SemiMajorAxis;
    let digits = if signed { text.strip_prefix('-').unwrap_or(text) } else { text };
    let unit = element.unit();
    if digits.is_empty() || !digits.bytes().all(|byte| byte.is_ascii_digit()) {
        let what = if text.contains('.') {
            format!("has a decimal point: write a whole number, in {unit}")
        } else if signed {
            format!("is not a whole number, in {unit}: digits, with a minus ahead of them or not")
        } else {
            format!("is not a whole number, in {unit}: digits alone")
        };
        return Err(match malformed::whole(element, text) {
            Some(hint) => format!("{what}; {hint}"),
            None => what,
        });
    }
    let number = text.parse::<i64>().ok().and_then(|number| N::try_from(number).ok());
    number.ok_or_else(|| format!("is too large, in {unit}"))
}

#[cfg(test)]
mod tests {
    use super::*;

    #[test]
    fn whole_numbers() {
        let axis = |text| whole_number::<u32>(Element::SemiMajorAxis, text);
        let rate = |text| whole_number::<i32>(Element::NodeRate, text);
        assert_eq!(axis("26100000"), Ok(26_100_000));
        assert_eq!(axis("0"), Ok(0));
        assert_eq!(axis("0004294967295"), Ok(u32::MAX));
        for (text, number) in [
            ("-1724", -1_724),
            ("2834", 2_834),
            ("-0", 0),
            ("2147483647", i32::MAX),
            ("-2147483648", i32::MIN),
        ] {
            assert_eq!(rate(text), Ok(number), "{text}");
        }
        for text in ["4294967296", "99999999999999999999999999"] {
            assert_eq!(axis(text), Err("is too large, in metres".to_owned()), "{text}");
        }
        for text in ["2147483648", "-2147483649", "-99999999999999999999999999"] {
            let told = "is too large, in units of 10^-4 degree a day".to_owned();
            assert_eq!(rate(text), Err(told), "{text}");
        }
        for text in ["", "-1", "+1", "1e5", "26 100", " 1", "1m", "x", "\u{fffd}", "--node-rate"] {
            let told = "is not a whole number, in metres: digits alone".to_owned();
            assert_eq!(axis(text), Err(told), "{text}");
        }
        for text in ["", "-", "--1", "+1", "1-", "- 1", "1e5", "\u{2212}1724"] {
            let told = rate(text).unwrap_err();
            assert!(told.starts_with("is not a whole number, in units of 10^-4 degree"), "{told}");
        }
    }

    /// A decimal is told with the whole number that it may stand for.
    #[test]
    fn decimals() {
        for (element, text, told) in [
            (
                Element::SemiMajorAxis,
                "26100.0",
                "has a decimal point: write a whole number, in metres; 26100.0 metres are written 26100, 26100.0 \
                 km 26100000",
            ),
            (
                Element::NodeRate,
                "-0.1724",
                "has a decimal point: write a whole number, in units of 10^-4 degree a day; -0.1724 degrees a day \
                 are written -1724",
            ),
            (
                Element::PerigeeRate,
                "0,2834",
                "is not a whole number, in units of 10^-4 degree a day: digits, with a minus ahead of them or not; \
                 0,2834 degrees a day are written 2834",
            ),
            (
                Element::PerigeeRate,
                "1.2.3",
                "has a decimal point: write a whole number, in units of 10^-4 degree a day",
            ),
        ] {
            assert_eq!(whole_number::<i32>(element, text), Err(told.to_owned()));
        }
    }
}
