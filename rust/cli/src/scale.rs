//! `scale FILE...`: what a model's inputs are scaled by, from the training labels of label files.

mod derived;

use std::path::Path;

use yurdelmiz::{Figures, Refusal, Refused};

use crate::arguments::{Arguments, Command};
use crate::decimal::{grouped, shortest};
use crate::failure::{note, Failure};
use crate::label_input::LabelInput;
use crate::tally::Tally;
use crate::{quote, stdout};

pub const COMMAND: Command = Command {
    name: "scale",
    operands: &["FILE..."],
    flags: &[],
    help: include_str!("../help/scale.txt"),
    run,
};

fn run(arguments: &Arguments) -> Result<(), Failure> {
    let mut figures = Figures::default();
    let mut tally = Tally::default();
    for path in arguments.paths() {
        tally.files += 1;
        match add(&mut figures, path) {
            Ok(()) => {}
            Err(NotAdded::Refused(why)) => {
                tally.refused += 1;
                note(format!("{}: {why}", quote::name(path)));
            }
            Err(NotAdded::Unread(why)) => {
                tally.unread += 1;
                note(format!("{}: cannot be read: {why}", quote::name(path)));
            }
        }
    }
    stdout::print(&lines(&figures))?;
    tally.verdict()
}

/// Why a file adds nothing.
enum NotAdded {
    Refused(String),
    Unread(String),
}

/// Adds a file by the proved library's verdict.
fn add(figures: &mut Figures, path: &Path) -> Result<(), NotAdded> {
    let input = LabelInput::open(path).map_err(NotAdded::Unread)?;
    figures.add(input.bytes()).map_err(|refused| {
        let why = match refused.refusal {
            // From nothing, file by file, there is no other case of it.
            Refusal::Figures => {
                format!("the figures have {} files already, the most", grouped(Figures::MOST_FILES))
            }
            _ => input.why(refused),
        };
        let Refused { refusal, place } = refused;
        NotAdded::Refused(format!("refused {} at {place}: {why}", refusal.number()))
    })
}

/// A line for each figure.
fn lines(figures: &Figures) -> String {
    let Figures { files, labels, dark, valid, least, greatest, sines, squares } = *figures;
    let extreme = |watts: Option<f32>| match watts {
        Some(watts) => format!("{:08x} {}", watts.to_bits(), shortest(watts)),
        None => "none".to_owned(),
    };
    let rounded = |number: Option<String>| match number {
        Some(number) => format!("{number} rounded"),
        None => "none".to_owned(),
    };
    let lines = [
        ("files", files.to_string()),
        ("training", labels.to_string()),
        ("dark", dark.to_string()),
        ("valid", valid.to_string()),
        ("least", extreme(least)),
        ("greatest", extreme(greatest)),
        ("sines", sines.to_string()),
        ("squares", squares.to_string()),
        ("mean-sine", rounded(derived::mean_sine(figures))),
        ("deviation-sine", rounded(derived::deviation_sine(figures))),
        ("range-watts", rounded(derived::range_watts(figures))),
    ];
    lines.map(|(name, value)| format!("{name} {value}\n")).concat()
}
