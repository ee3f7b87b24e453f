//! Label files as `list`, `plot` and `scale` read them: what one refuses the others refuse, in the same words.

use std::path::Path;

use yurdelmiz::{LabelFile, Refused};

use crate::failure::Failure;
use crate::input::{self, End};
use crate::refused_file;

/// The end of a label file, as much of it as a file can hold from its first label on.
pub struct LabelInput(End);

/// What a refusal prints on standard output.
pub fn refusal_line(refused: Refused) -> String {
    format!("refused {} at {}\n", refused.refusal.number(), refused.place)
}

impl LabelInput {
    pub fn read(path: &Path) -> Result<LabelInput, Failure> {
        input::read_end(path, LabelFile::LONGEST).map(LabelInput)
    }

    /// The same, or why it cannot be read.
    pub fn open(path: &Path) -> Result<LabelInput, String> {
        input::end_of(path, LabelFile::LONGEST).map(LabelInput)
    }

    pub fn bytes(&self) -> &[u8] {
        &self.0.bytes
    }

    /// The proved reader's verdict.
    pub fn file(&self) -> Result<LabelFile<'_>, Refused> {
        LabelFile::read(&self.0.bytes)
    }

    /// Why the proved reader refused it.
    pub fn failure(&self, path: &Path, refused: Refused) -> Failure {
        refused_file::failure(path, &self.0, refused)
    }

    /// The same without the file's name.
    pub fn why(&self, refused: Refused) -> String {
        refused_file::why(&self.0, refused)
    }
}
