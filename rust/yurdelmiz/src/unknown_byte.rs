//! A byte that stands for no case.

use std::error::Error;
use std::fmt;

/// A byte that stands for no case of its field.
#[derive(Clone, Copy, Debug, PartialEq, Eq, Hash)]
pub struct UnknownByte {
    /// What was to be read, as `side`.
    pub field: &'static str,
    /// The byte.
    pub byte: u8,
}

impl fmt::Display for UnknownByte {
    fn fmt(&self, f: &mut fmt::Formatter) -> fmt::Result {
        write!(f, "{} {} is not known", self.field, self.byte)
    }
}

impl Error for UnknownByte {}
