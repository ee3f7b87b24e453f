//! The library's answers about files as the reference gives them.

use reference::salvage::Salvaged;
use reference::trailer::{Counts, Form};

/// A refusal's number and place.
pub type Refused = (u32, u32);

pub fn counts(counts: yurdelmiz::Counts) -> Counts {
    let yurdelmiz::Counts { labels, training, test, dark, dark_test } = counts;
    Counts { labels, training, test, dark, dark_test }
}

pub fn form(form: yurdelmiz::Form) -> Form {
    match form {
        yurdelmiz::Form::Bytes16 => Form::Bytes16,
        yurdelmiz::Form::Bytes24 => Form::Bytes24,
    }
}

pub fn salvaged(salvaged: yurdelmiz::Salvaged) -> Salvaged {
    let yurdelmiz::Salvaged { labels, dropped } = salvaged;
    Salvaged { labels, dropped }
}

pub fn library_refused(refused: yurdelmiz::Refused) -> Refused {
    (refused.refusal.number(), refused.place)
}

pub fn reference_refused(refused: reference::Refused) -> Refused {
    (refused.refusal.number(), refused.place)
}
