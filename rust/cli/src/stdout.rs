//! Standard output: a text written whole and flushed, or many lines through a buffer; or the failure.

use std::fmt::Arguments;
use std::io::{self, BufWriter, StdoutLock, Write};
use std::path::Path;

use crate::failure::Failure;
use crate::quote;

pub fn print(text: &str) -> Result<(), Failure> {
    let mut output = io::stdout().lock();
    let written = output.write_all(text.as_bytes()).and_then(|()| output.flush());
    written.map_err(|error| Failure::standard_output(&error))
}

/// A text after a file is written: the failure says that it is.
pub fn print_after(written: &Path, text: &str) -> Result<(), Failure> {
    print(text).map_err(|failure| failure.after(format!("{} is written", quote::path(written))))
}

/// Lines that are written as they come, a buffer of them at a time.
pub struct Lines(BufWriter<StdoutLock<'static>>);

impl Lines {
    pub fn new() -> Lines {
        Lines(BufWriter::new(io::stdout().lock()))
    }

    pub fn print(&mut self, line: Arguments) -> Result<(), Failure> {
        self.0.write_fmt(line).map_err(|error| Failure::standard_output(&error))
    }

    /// Writes what is left in the buffer.
    pub fn end(mut self) -> Result<(), Failure> {
        self.0.flush().map_err(|error| Failure::standard_output(&error))
    }
}
