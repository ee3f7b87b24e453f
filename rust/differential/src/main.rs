//! Compares the proved library with the reference on random, edge and damaged inputs, and with itself on alike days.
//!
//!     differential [--seed N] [--count N]
//!
//! Each cheap subject gets `count` comparisons (1,000,000 where none is given), scale figures a fourth of it, elements
//! files, tails, salvage and packets a tenth, labelling, reading and adding a hundredth in days and files, leaks a
//! hundredth in pairs of days, two-line elements a thousandth in sets that are changed everywhere, element sets found
//! and put a thousandth in tables that are damaged in every way. The same seed gives the same inputs.

mod additions;
mod alike_days;
mod answers;
mod buffers;
mod days;
mod element_tables;
mod elements_files;
mod files;
mod find_sets;
mod inputs;
mod label_files;
mod leaks;
mod lent;
mod numbers;
mod packets;
mod put_sets;
mod random;
mod report;
mod salvages;
mod scales;
mod shades;
mod tails;
mod two_line_sets;
mod two_lines;

use std::process::ExitCode;
use std::time::Instant;

use random::Random;
use report::Report;

const USAGE: &str = "usage: differential [--seed N] [--count N]";

struct Options {
    seed: u64,
    count: u64,
}

fn options() -> Option<Options> {
    let mut options = Options { seed: 1, count: 1_000_000 };
    let mut arguments = std::env::args().skip(1);
    while let Some(name) = arguments.next() {
        let value = arguments.next()?.parse().ok()?;
        match name.as_str() {
            "--seed" => options.seed = value,
            "--count" => options.count = value,
            _ => return None,
        }
    }
    Some(options)
}

/// Makes comparisons of one subject from random numbers.
type Subject = fn(&mut Random, &mut Report);

fn main() -> ExitCode {
    let Some(Options { seed, count }) = options() else {
        eprintln!("{USAGE}");
        return ExitCode::from(2);
    };
    println!("seed {seed}");
    let subjects: [(&str, u64, Subject); 20] = [
        ("sine", count, numbers::sine),
        ("kepler", count, numbers::kepler),
        ("position", count, numbers::position),
        ("sun", count, numbers::sun),
        ("shade", count, shades::shade),
        ("label", count / 100, days::label),
        ("read", count / 100, files::read),
        ("buffers", count / 100, buffers::lent),
        ("elements", count / 10, elements_files::elements),
        ("root", count, numbers::root),
        ("revolution", count, numbers::revolution),
        ("add", count / 100, additions::adding),
        ("tail", count / 10, tails::tail),
        ("salvage", count / 10, salvages::salvage),
        ("packets", count / 10, packets::packets),
        ("scale", count / 4, scales::scale),
        ("leaks", count / 100, leaks::leaks),
        ("two lines", count / 1_000, two_lines::two_lines),
        ("find set", count / 1_000, find_sets::find_set),
        ("put set", count / 1_000, put_sets::put_set),
    ];
    let mut differences = 0;
    for (number, (name, rounds, compare)) in subjects.into_iter().enumerate() {
        // A subject's inputs do not depend on what ran before it.
        let mut random = Random::new(seed.wrapping_add((number as u64) << 56));
        let mut report = Report::new(name);
        let start = Instant::now();
        for _ in 0..rounds {
            compare(&mut random, &mut report);
        }
        report.end();
        report.print(start.elapsed());
        differences += report.differences();
    }
    println!("{differences} differences");
    if differences == 0 {
        ExitCode::SUCCESS
    } else {
        ExitCode::FAILURE
    }
}
