//! Telemetry as `label` and `add` read it: records of 16 bytes, or CSV turned into them; or what came on standard
//! input.

use std::fs;
use std::path::Path;

use yurdelmiz::{LabelFile, Sample};

use crate::failure::Failure;
use crate::input::{self, looks_like_text, Start};
use crate::malformed;
use crate::quote;
use crate::standard_input;
use crate::telemetry_csv::{self, BadLine, Row};

/// 1,024 records. One byte more is read, by which a longer file is known: it is refused for its length, however
/// long it is.
const LONGEST: usize = 1_024 * Sample::SIZE;

/// A file as it was read.
pub struct TelemetryFile<'a> {
    path: &'a Path,
    start: Start,
    csv: bool,
}

impl<'a> TelemetryFile<'a> {
    /// Reads the file, as CSV where that is said or its name ends in .csv.
    pub fn read(path: &'a Path, csv: bool) -> Result<TelemetryFile<'a>, Failure> {
        let csv = csv || path.extension().is_some_and(|end| end.eq_ignore_ascii_case("csv"));
        let most = if csv { telemetry_csv::LONGEST } else { LONGEST };
        Ok(TelemetryFile { path, start: input::read_start(path, most)?, csv })
    }

    pub fn records(&self) -> Result<Telemetry<'a>, BadLine> {
        let source = Source::File(self.path);
        if !self.csv {
            let (bytes, length) = (self.start.bytes.clone(), self.start.length);
            return Ok(Telemetry { source, bytes, length, rows: None });
        }
        let rows = telemetry_csv::parse(&self.start.bytes)?;
        let bytes: Vec<u8> = rows.iter().flat_map(|row| row.sample.to_bytes()).collect();
        Ok(Telemetry { source, length: Some(bytes.len() as u64), bytes, rows: Some(rows) })
    }

    /// File, line, what is wrong and what stands there.
    pub fn failure(&self, bad: &BadLine) -> Failure {
        let found = malformed::found(&self.start.bytes, bad.line);
        let (path, BadLine { line, what }) = (quote::path(self.path), bad);
        Failure::refused(format!("{path}, line {line}: {what}; {found}"))
    }
}

/// Where telemetry comes from.
#[derive(Clone, Copy)]
pub enum Source<'a> {
    File(&'a Path),
    StandardInput,
}

/// Records of 16 bytes, as the library takes them.
pub struct Telemetry<'a> {
    pub source: Source<'a>,
    pub bytes: Vec<u8>,
    length: Option<u64>,
    rows: Option<Vec<Row>>,
}

impl<'a> Telemetry<'a> {
    /// What came on standard input, to its end or not.
    pub fn streamed(bytes: Vec<u8>, ended: bool) -> Telemetry<'a> {
        let length = ended.then_some(bytes.len() as u64);
        Telemetry { source: Source::StandardInput, bytes, length, rows: None }
    }

    /// What a message calls it.
    pub fn name(&self) -> String {
        match self.source {
            Source::File(path) => quote::path(path),
            Source::StandardInput => standard_input::NAME.to_owned(),
        }
    }

    /// The length of all records, where it is known.
    pub fn length(&self) -> Option<u64> {
        self.length
    }

    /// Where a record stands in its file.
    pub fn place(&self, number: usize) -> String {
        match self.rows.as_ref().and_then(|rows| rows.get(number)) {
            Some(row) => format!("line {} (record {number}, from 0)", row.line),
            None => format!("record {number} (from 0, at byte {})", number * Sample::SIZE),
        }
    }

    pub fn time(&self, number: usize) -> Option<i64> {
        let record = self.bytes.chunks_exact(Sample::SIZE).nth(number)?;
        Some(Sample::from_bytes(record.try_into().ok()?).time)
    }

    /// Whether it is what `label` writes; of standard input, what came so far.
    pub fn is_label_file(&self) -> bool {
        match self.source {
            Source::File(path) => {
                fs::metadata(path).is_ok_and(|metadata| metadata.is_file())
                    && input::read_end(path, LabelFile::LONGEST)
                        .is_ok_and(|end| LabelFile::read(&end.bytes).is_ok())
            }
            Source::StandardInput => LabelFile::read(&self.bytes).is_ok(),
        }
    }

    /// Whether it was read as records and could be text.
    pub fn looks_like_csv(&self) -> bool {
        self.rows.is_none() && looks_like_text(&self.bytes)
    }
}
