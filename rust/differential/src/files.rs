//! Comparisons of reading: sound files and damaged ones, and their tails.

use crate::answers::{counts, form, library_refused, reference_refused};
use crate::label_files;
use crate::random::Random;
use crate::report::{Hex, Report};
use crate::tails;

pub fn read(random: &mut Random, report: &mut Report) {
    let mut buffer = label_files::damaged(random);
    let length = label_files::length(random, &mut buffer);
    let lent = buffer.clone();
    let library = yurdelmiz::read(&lent, length)
        .map(|(found, trailer)| (counts(found), form(trailer)))
        .map_err(library_refused);
    let reference = reference::file::read(&buffer, length)
        .map(|file| (file.counts, file.form))
        .map_err(reference_refused);
    let input = (Hex(&buffer), length);
    report.outcomes(&input, library, reference);
    report.bytes(&input, "file", &lent, &buffer);
    if let Some(file) = buffer.get(..length) {
        tails::of_file(report, file);
    }
}
