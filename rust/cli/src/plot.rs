//! `plot LABELS OUT.svg`

mod axis;
mod cover;
mod picture;
mod style;
mod svg;
mod watts;

use yurdelmiz::Label;

use crate::arguments::{Arguments, Command, Flag};
use crate::failure::Failure;
use crate::label_input::{refusal_line, LabelInput};
use crate::{output, quote, stdout};
use picture::Names;

pub const COMMAND: Command = Command {
    name: "plot",
    operands: &["LABELS", "OUT.svg"],
    flags: &[Flag { name: "--satellite", value: Some("NAME") }],
    help: include_str!("../help/plot.txt"),
    run,
};

fn run(arguments: &Arguments) -> Result<(), Failure> {
    let (path, out) = (arguments.path(0), arguments.path(1));
    if !out.extension().is_some_and(|ending| ending.eq_ignore_ascii_case("svg")) {
        return Err(COMMAND.mistake(format!(
            "plot: {} does not end in .svg, and the picture is SVG: the order is LABELS OUT.svg",
            quote::path(out)
        )));
    }
    output::check(&COMMAND, out, &[path])?;
    let input = LabelInput::read(path)?;
    let file = match input.file() {
        Ok(file) => file,
        Err(refused) => {
            stdout::print(&refusal_line(refused))?;
            return Err(input.failure(path, refused));
        }
    };
    let labels: Vec<Label> = file.labels().collect();
    let satellite = arguments.value("--satellite").filter(|name| !name.is_empty());
    let names = Names {
        file: path.file_name().unwrap_or(path.as_os_str()).to_string_lossy().into_owned(),
        satellite: satellite.map(|name| name.to_string_lossy().into_owned()),
    };
    output::write(out, picture::draw(&names, &labels).as_bytes())?;
    stdout::print_after(out, &format!("drawn {}\n", labels.len()))
}
