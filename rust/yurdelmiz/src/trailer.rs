//! The trailer of a label file: its counts and its two forms.

use crate::bytes::u32_at;
use crate::label::Label;

/// How many labels a file holds.
#[derive(Clone, Copy, Debug, PartialEq, Eq)]
pub struct Counts {
    /// All of them.
    pub labels: u32,
    /// Those on the training side.
    pub training: u32,
    /// Those on the test side.
    pub test: u32,
    /// Those that are dark; those that are part are not counted.
    pub dark: u32,
    /// Those on the test side that are dark.
    pub dark_test: u32,
}

impl Counts {
    pub(crate) fn at(bytes: &[u8], at: usize) -> Counts {
        let [labels, training, test, dark, dark_test] =
            [0, 4, 8, 12, 16].map(|field| u32_at(bytes, at + field));
        Counts { labels, training, test, dark, dark_test }
    }
}

/// Which trailer a file has, behind its labels. The distance, from the end of the file back to the first
/// label, tells it: the two differ by no whole number of labels.
#[derive(Clone, Copy, Debug, PartialEq, Eq, Hash)]
pub enum Form {
    /// Labels, training labels, test labels and the distance.
    Bytes16,
    /// The same with dark labels and dark test labels ahead of the distance.
    Bytes24,
}

impl Form {
    /// Both forms.
    pub const ALL: [Form; 2] = [Form::Bytes16, Form::Bytes24];

    /// The form that labelling, adding, salvage and closing a day write.
    pub const WRITTEN: Form = Form::Bytes24;

    /// The bytes of the trailer.
    pub const fn size(self) -> usize {
        match self {
            Form::Bytes16 => 16,
            Form::Bytes24 => 24,
        }
    }

    /// The bytes of so many labels and the trailer.
    pub const fn distance(self, labels: usize) -> usize {
        labels * Label::SIZE + self.size()
    }

    /// The form of a size that the proved reader gave.
    pub(crate) fn of_size(size: u32) -> Form {
        let known = Form::ALL.into_iter().find(|form| form.size() == size as usize);
        known.unwrap_or_else(|| panic!("a trailer of {size} bytes is outside the C interface"))
    }
}
