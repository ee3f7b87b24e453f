//! Elements in the text of an elements file, which has a line for each.

use std::path::Path;

use yurdelmiz::{Element, Elements};

use crate::written::Written;
use crate::{elements_report, quote};

/// The lines of an elements file.
pub fn lines(elements: &Elements) -> String {
    let lines = Element::ALL.map(|element| {
        format!("{} {}\n", element.name(), elements_report::number(element, elements))
    });
    lines.concat()
}

pub struct ElementsText<'a> {
    pub path: &'a Path,
    pub text: Vec<u8>,
    pub elements: Elements,
}

impl ElementsText<'_> {
    /// The number of the line that has an element: its name stands once in an accepted file.
    fn line(&self, element: Element) -> usize {
        let start = format!("{} ", element.name());
        let mut lines = self.text.split(|byte| *byte == b'\n');
        lines.position(|line| line.starts_with(start.as_bytes())).map_or(0, |at| at + 1)
    }
}

impl Written for ElementsText<'_> {
    fn place(&self, elements: &[Element]) -> String {
        let lines: Vec<String> = elements.iter().map(|it| self.line(*it).to_string()).collect();
        let line = if lines.len() == 1 { "line" } else { "lines" };
        format!("{}, {line} {}", quote::path(self.path), lines.join(" and "))
    }

    fn text(&self, element: Element) -> String {
        elements_report::number(element, &self.elements).to_string()
    }

    fn number(&self, element: Element) -> Option<i64> {
        Some(elements_report::number(element, &self.elements))
    }

    fn value(&self, element: Element) -> String {
        elements_report::value(element, elements_report::number(element, &self.elements))
    }

    fn unit(&self, element: Element) -> &'static str {
        element.unit()
    }
}
