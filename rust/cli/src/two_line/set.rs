//! The two lines of a set with the axis and the rates beside them, and where each element stands in them.

use std::path::Path;

use yurdelmiz::{parse_two_line, Element, Elements, Refused, TwoLineField};

use super::beside::{self, AxisAndRates};
use super::lines::{two_lines, BadLine, Line};
use crate::decimal::fixed;
use crate::written::Written;
use crate::{elements_report, quote};

pub struct TwoLineSet<'a> {
    pub path: &'a Path,
    pub lines: [Line; 2],
    beside: AxisAndRates,
}

impl<'a> TwoLineSet<'a> {
    /// The set of a file.
    pub fn find(
        path: &'a Path,
        text: &[u8],
        beside: AxisAndRates,
    ) -> Result<TwoLineSet<'a>, BadLine> {
        Ok(TwoLineSet { path, lines: two_lines(text)?, beside })
    }

    /// The proved reader's verdict.
    pub fn elements(&self) -> Result<Elements, Refused> {
        let AxisAndRates { semi_major_axis, node_rate, perigee_rate } = self.beside;
        let lines = [&self.lines[0].bytes[..], &self.lines[1].bytes];
        parse_two_line(lines, semi_major_axis, node_rate, perigee_rate)
    }

    /// What stands in a field; less where the line is too short.
    pub fn text_of(&self, field: &TwoLineField) -> &[u8] {
        let line = &self.lines[field.line - 1].bytes;
        &line[(field.first - 1).min(line.len())..field.last.min(line.len())]
    }

    /// A line by its number in the file, and by its own where that is another.
    pub fn line(&self, own: usize) -> String {
        let number = self.lines[own - 1].number;
        if number == own {
            format!("line {number}")
        } else {
            format!("line {number} (line {own} of the set)")
        }
    }

    /// Where a field stands.
    pub fn columns(&self, field: &TwoLineField) -> String {
        format!("{}, columns {} to {}", self.line(field.line), field.first, field.last)
    }

    /// The number that the digits of a field make, in units of its last; leading blanks are zeros.
    fn digits(&self, field: &TwoLineField) -> Option<i64> {
        let mut digits: Vec<u8> = self.text_of(field).to_vec();
        digits.retain(|byte| !matches!(byte, b' ' | b'+' | b'.'));
        String::from_utf8(digits).ok()?.parse().ok()
    }
}

/// The field of an element; of the epoch there are two.
fn field_of(element: Element) -> Option<TwoLineField> {
    let place = match element {
        Element::HalfMeanMotionDerivative => 34,
        Element::Inclination => 69 + 9,
        Element::Node => 69 + 18,
        Element::Eccentricity => 69 + 27,
        Element::ArgumentOfPerigee => 69 + 35,
        Element::MeanAnomaly => 69 + 44,
        Element::MeanMotion => 69 + 53,
        Element::EpochRevolution => 69 + 64,
        Element::SemiMajorAxis | Element::NodeRate | Element::PerigeeRate | Element::Epoch => {
            return None;
        }
    };
    TwoLineField::at(place)
}

impl Written for TwoLineSet<'_> {
    fn place(&self, elements: &[Element]) -> String {
        let places: Vec<String> = elements
            .iter()
            .map(|element| match (beside::option(*element), field_of(*element)) {
                (Some(option), _) => option.to_owned(),
                (None, Some(field)) => self.columns(&field),
                (None, None) => self.line(1),
            })
            .collect();
        let places = places.join(", and ");
        if elements.first().is_some_and(|element| beside::option(*element).is_some()) {
            places
        } else {
            format!("{}, {places}", quote::path(self.path))
        }
    }

    fn text(&self, element: Element) -> String {
        match (field_of(element), self.number(element)) {
            (Some(field), _) => quote::bytes(self.text_of(&field)),
            (None, Some(number)) => number.to_string(),
            (None, None) => quote::bytes(&self.lines[0].bytes),
        }
    }

    fn number(&self, element: Element) -> Option<i64> {
        match element {
            Element::SemiMajorAxis => Some(self.beside.semi_major_axis.into()),
            Element::NodeRate => Some(self.beside.node_rate.into()),
            Element::PerigeeRate => Some(self.beside.perigee_rate.into()),
            Element::Eccentricity
            | Element::MeanMotion
            | Element::EpochRevolution
            | Element::HalfMeanMotionDerivative => self.digits(&field_of(element)?),
            // In degrees, or in two fields.
            Element::Inclination
            | Element::Node
            | Element::ArgumentOfPerigee
            | Element::MeanAnomaly
            | Element::Epoch => None,
        }
    }

    fn value(&self, element: Element) -> String {
        if let Some(number) = self.number(element) {
            return elements_report::value(element, number);
        }
        match field_of(element).and_then(|field| self.digits(&field)) {
            Some(angle) => format!("{} degrees", fixed(angle, 4)),
            None => self.text(element),
        }
    }

    fn unit(&self, element: Element) -> &'static str {
        match element {
            Element::Inclination
            | Element::Node
            | Element::ArgumentOfPerigee
            | Element::MeanAnomaly => "degrees",
            Element::MeanMotion => "revolutions a day",
            Element::HalfMeanMotionDerivative => "revolutions a day squared",
            Element::Epoch => "days of the year",
            Element::Eccentricity => "units of 10^-7, with its point implied",
            Element::SemiMajorAxis
            | Element::NodeRate
            | Element::PerigeeRate
            | Element::EpochRevolution => element.unit(),
        }
    }
}

#[cfg(test)]
mod tests {
    use super::*;

    /// Every element has a field, an option, or is the epoch.
    #[test]
    fn fields_of_elements() {
        for element in Element::ALL {
            let has = (field_of(element).is_some(), beside::option(element).is_some());
            let due = match element {
                Element::Epoch => (false, false),
                Element::SemiMajorAxis | Element::NodeRate | Element::PerigeeRate => (false, true),
                _ => (true, false),
            };
            assert_eq!(has, due, "{}", element.name());
        }
    }
}
