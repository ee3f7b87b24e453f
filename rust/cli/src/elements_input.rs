//! Elements as `label`, `add` and `sets put` take them: read, told where they are malformed or refused, and shown.

use std::path::Path;

use yurdelmiz::{parse_elements, Element, Elements, Refusal};

use crate::elements_text::ElementsText;
use crate::failure::{note, raw_note, Failure};
use crate::malformed::Swapped;
use crate::two_line::{AxisAndRates, TwoLineSet};
use crate::written::Written;
use crate::{elements_report, input, malformed, quote, refused_elements, stdout, third_law};

/// The longest file; one byte more is read, by which a longer one is known.
pub const LONGEST_TEXT: usize = 65_535;

/// A file as it was read, and what two-line elements do not have.
pub struct ElementsFile<'a> {
    path: &'a Path,
    text: Vec<u8>,
    beside: Option<AxisAndRates>,
    swapped: Swapped,
}

impl<'a> ElementsFile<'a> {
    pub fn read(
        path: &'a Path,
        beside: Option<AxisAndRates>,
        swapped: Swapped,
    ) -> Result<ElementsFile<'a>, Failure> {
        let text = input::read_start(path, LONGEST_TEXT)?.bytes;
        Ok(ElementsFile { path, text, beside, swapped })
    }

    /// Takes the elements, which go to standard error as they were taken, with a warning.
    pub fn take(self) -> Result<ElementsInput<'a>, Failure> {
        let path = self.path;
        let input = match self.beside {
            None => from_text(path, self.text, self.swapped)?,
            Some(beside) => from_two_lines(path, &self.text, beside, self.swapped)?,
        };
        raw_note(elements_report::lines(&input.elements));
        warn(path, &*input.written);
        Ok(input)
    }
}

fn from_text(path: &Path, text: Vec<u8>, swapped: Swapped) -> Result<ElementsInput<'_>, Failure> {
    match parse_elements(&text) {
        Ok(elements) => Ok(ElementsInput::of_text(path, text, elements)),
        Err(fault) => {
            let sentence = malformed::sentence(fault, &text);
            stdout::print(&format!("malformed line {}: {sentence}\n", fault.line))?;
            Err(malformed::failure(path, &text, fault, swapped))
        }
    }
}

fn from_two_lines<'a>(
    path: &'a Path,
    text: &[u8],
    beside: AxisAndRates,
    swapped: Swapped,
) -> Result<ElementsInput<'a>, Failure> {
    let set = match TwoLineSet::find(path, text, beside) {
        Ok(set) => set,
        Err(bad) => {
            stdout::print(&format!("malformed line {}: {}\n", bad.line, bad.what))?;
            return Err(bad.failure(path, text, swapped));
        }
    };
    match set.elements() {
        Ok(elements) => Ok(ElementsInput { elements, written: Box::new(set) }),
        Err(refused) => {
            stdout::print(&format!("{refused}\n"))?;
            let why = refused_elements::why(&set, refused.refusal);
            if why.is_some() {
                warn(path, &set);
            }
            Err(Failure::refused(why.unwrap_or_else(|| set.refused(refused))))
        }
    }
}

/// Warns where axis and mean motion disagree, accepted or refused.
fn warn(path: &Path, written: &dyn Written) {
    let numbers = [Element::SemiMajorAxis, Element::MeanMotion].map(|it| written.number(it));
    if let [Some(axis), Some(mean_motion)] = numbers {
        if let Some(warning) = third_law::warning(axis, mean_motion) {
            note(format!("warning: {}: {warning}", quote::path(path)));
        }
    }
}

/// Elements, and how they are written.
pub struct ElementsInput<'a> {
    pub elements: Elements,
    pub written: Box<dyn Written + 'a>,
}

impl<'a> ElementsInput<'a> {
    pub fn of_text(path: &'a Path, text: Vec<u8>, elements: Elements) -> ElementsInput<'a> {
        ElementsInput { elements, written: Box::new(ElementsText { path, text, elements }) }
    }

    /// Why they were refused, or none where the refusal is about something else.
    pub fn refused(&self, refusal: Refusal) -> Option<String> {
        refused_elements::why(&*self.written, refusal)
    }
}
