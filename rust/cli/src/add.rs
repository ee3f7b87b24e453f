//! `add ELEMENTS TELEMETRY LABELS`

use yurdelmiz::{add_to_vec, LabelFile, Refusal, Refused, Sample};

use crate::arguments::{Arguments, Command, Flag};
use crate::day_input::Day;
use crate::failure::Failure;
use crate::two_line::{self, AxisAndRates};
use crate::{input, label_output, refused_day, refused_file, stdout};

pub const COMMAND: Command = Command {
    name: "add",
    operands: &["ELEMENTS", "TELEMETRY", "LABELS"],
    flags: &[
        Flag { name: "--csv", value: None },
        two_line::AXIS_FLAG,
        two_line::NODE_RATE_FLAG,
        two_line::PERIGEE_RATE_FLAG,
    ],
    help: include_str!("../help/add.txt"),
    run,
};

fn run(arguments: &Arguments) -> Result<(), Failure> {
    let beside = AxisAndRates::given(&COMMAND, arguments)?;
    let [elements_path, telemetry_path, labels_path] = [0, 1, 2].map(|at| arguments.path(at));
    label_output::check(&COMMAND, labels_path, &[elements_path, telemetry_path])?;
    let mut file = input::read_whole(labels_path)?;
    let day = Day::read(elements_path, beside, telemetry_path, arguments.has("--csv"))?;
    let telemetry = &day.telemetry.bytes;
    match add_to_vec(&day.elements.elements, &mut file.bytes, telemetry) {
        Ok(counts) => {
            let records = telemetry.len() / Sample::SIZE;
            label_output::write(labels_path, &file.bytes, &format!("added {records} "), counts)
        }
        Err(refused) => {
            stdout::print(&format!("{refused}\n"))?;
            let Refused { refusal, .. } = refused;
            if matches!(refusal, Refusal::Trailer | Refusal::Labels) {
                return Err(refused_file::failure(labels_path, &file, refused));
            }
            let before = LabelFile::read(&file.bytes).map_or(0, |file| file.counts().labels);
            Err(refused_day::failure(&day, before, refused))
        }
    }
}
