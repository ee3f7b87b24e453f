//! `list LABELS`: document 01's lines, or the same labels as CSV or JSON, in words and decimals.

use yurdelmiz::{Counts, Label, LabelFile, Refused};

use crate::arguments::{Arguments, Command, Flag};
use crate::date;
use crate::decimal::shortest;
use crate::failure::Failure;
use crate::label_input::{refusal_line, LabelInput};
use crate::stdout;

pub const COMMAND: Command = Command {
    name: "list",
    operands: &["LABELS"],
    flags: &[Flag { name: "--csv", value: None }, Flag { name: "--json", value: None }],
    help: include_str!("../help/list.txt"),
    run,
};

fn run(arguments: &Arguments) -> Result<(), Failure> {
    let (csv, json) = (arguments.has("--csv"), arguments.has("--json"));
    if csv && json {
        return Err(COMMAND.mistake("list: --csv and --json are given together"));
    }
    let path = arguments.path(0);
    let input = LabelInput::read(path)?;
    match input.file() {
        Ok(file) if csv => stdout::print(&as_csv(&file)),
        Ok(file) if json => stdout::print(&as_json(&file)),
        Ok(file) => stdout::print(&as_lines(&file)),
        Err(refused) => {
            let line = if json { refusal_json(refused) } else { refusal_line(refused) };
            stdout::print(&line)?;
            Err(input.failure(path, refused))
        }
    }
}

/// Document 01's listing.
fn as_lines(file: &LabelFile) -> String {
    let Counts { labels, training, test, .. } = file.counts();
    let mut text = format!("labels {labels} training {training} test {test}\n");
    for label in file.labels() {
        let Label { time, revolution, side, shade, reading, elevation } = label;
        text.push_str(&format!(
            "{time} {revolution} {} {} {} {elevation} {:08x}\n",
            side.to_byte(),
            shade.to_byte(),
            reading.to_byte(),
            reading.watts_bits()
        ));
    }
    text
}

/// A label in words and decimals.
struct Words {
    time: String,
    sine: String,
    degrees: String,
    watts: Option<String>,
}

impl Words {
    fn of(label: &Label) -> Words {
        // Exact: a whole number below 2^31 over a power of two.
        let sine = f64::from(label.elevation) / f64::from(1 << 30);
        let degrees = format!("{:.4}", sine.asin().to_degrees());
        Words {
            time: date::iso(label.time),
            sine: format!("{sine}"),
            degrees: if degrees == "-0.0000" { "0.0000".to_owned() } else { degrees },
            watts: label.reading.watts().map(shortest),
        }
    }
}

fn as_csv(file: &LabelFile) -> String {
    let mut text =
        "time,revolution,side,shade,reading,elevation_degrees,elevation_sine,watts\n".to_owned();
    for label in file.labels() {
        let Words { time, sine, degrees, watts } = Words::of(&label);
        let Label { revolution, side, shade, reading, .. } = label;
        let watts = watts.unwrap_or_default();
        text.push_str(&format!(
            "{time},{revolution},{side},{shade},{reading},{degrees},{sine},{watts}\n"
        ));
    }
    text
}

fn as_json(file: &LabelFile) -> String {
    let Counts { labels, training, test, dark, dark_test } = file.counts();
    let objects: Vec<String> = file.labels().map(|label| label_json(&label)).collect();
    let objects = match objects.as_slice() {
        [] => "[]".to_owned(),
        some => format!("[\n{}\n]", some.join(",\n")),
    };
    format!(
        "{{\"counts\": {{\"labels\": {labels}, \"training\": {training}, \"test\": {test}, \
         \"dark\": {dark}, \"dark_test\": {dark_test}}}, \"labels\": {objects}}}\n"
    )
}

/// Every text here is a date or one of the words of a label: none needs an escape.
fn label_json(label: &Label) -> String {
    let Words { time, sine, degrees, watts } = Words::of(label);
    let Label { revolution, side, shade, reading, .. } = label;
    let watts = watts.unwrap_or_else(|| "null".to_owned());
    format!(
        "{{\"time\": \"{time}\", \"revolution\": {revolution}, \"side\": \"{side}\", \"shade\": \"{shade}\", \
         \"reading\": \"{reading}\", \"elevation_degrees\": {degrees}, \"elevation_sine\": {sine}, \
         \"watts\": {watts}}}"
    )
}

fn refusal_json(refused: Refused) -> String {
    format!("{{\"refused\": {}, \"at\": {}}}\n", refused.refusal.number(), refused.place)
}
