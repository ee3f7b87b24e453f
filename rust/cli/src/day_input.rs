//! Elements and telemetry as `label` and `add` take them from files.

use std::path::Path;

use crate::elements_input::{ElementsFile, ElementsInput};
use crate::failure::Failure;
use crate::malformed::Swapped;
use crate::stdout;
use crate::telemetry_input::{Telemetry, TelemetryFile};
use crate::two_line::AxisAndRates;

/// A day to be labelled.
pub struct Day<'a> {
    pub elements: ElementsInput<'a>,
    pub telemetry: Telemetry<'a>,
}

impl<'a> Day<'a> {
    /// Reads both files before it tells what is malformed in either.
    pub fn read(
        elements_path: &'a Path,
        beside: Option<AxisAndRates>,
        telemetry_path: &'a Path,
        csv: bool,
    ) -> Result<Day<'a>, Failure> {
        let elements_file = ElementsFile::read(elements_path, beside, Swapped::Telemetry)?;
        let telemetry_file = TelemetryFile::read(telemetry_path, csv)?;
        let elements = elements_file.take()?;
        let telemetry = match telemetry_file.records() {
            Ok(telemetry) => telemetry,
            Err(bad) => {
                let (line, what) = (bad.line, &bad.what);
                stdout::print(&format!("malformed line {line} of the telemetry: {what}\n"))?;
                return Err(telemetry_file.failure(&bad));
            }
        };
        Ok(Day { elements, telemetry })
    }
}
