//! How many of many files are refused or could not be read, for the line that ends what is said of them.

use crate::decimal::grouped;
use crate::failure::Failure;

#[derive(Default)]
pub struct Tally {
    pub files: u64,
    pub refused: u64,
    pub unread: u64,
}

impl Tally {
    pub fn verdict(&self) -> Result<(), Failure> {
        let Tally { files, refused, unread } = *self;
        let of = |number: u64| format!("{} of {} files", grouped(number), grouped(files));
        match (refused, unread) {
            (0, 0) => Ok(()),
            (_, 0) => Err(Failure::refused(format!("refused {}", of(refused)))),
            (0, _) => Err(Failure::unread(format!("could not read {}", of(unread)))),
            _ => {
                let both = format!("could not read {}, refused {}", of(unread), of(refused));
                Err(Failure::unread(both))
            }
        }
    }
}
