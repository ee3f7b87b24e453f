//! `label ELEMENTS TELEMETRY LABELS`

use std::path::Path;

use yurdelmiz::{label_to_vec, LabelFile};

use crate::arguments::{Arguments, Command, Flag};
use crate::day_input::Day;
use crate::failure::Failure;
use crate::two_line::{self, AxisAndRates};
use crate::{label_output, label_stream, refused_day, standard_input, stdout};

pub const COMMAND: Command = Command {
    name: "label",
    operands: &["ELEMENTS", "TELEMETRY", "LABELS"],
    flags: &[
        Flag { name: "--csv", value: None },
        two_line::AXIS_FLAG,
        two_line::NODE_RATE_FLAG,
        two_line::PERIGEE_RATE_FLAG,
    ],
    help: include_str!("../help/label.txt"),
    run,
};

fn run(arguments: &Arguments) -> Result<(), Failure> {
    let beside = AxisAndRates::given(&COMMAND, arguments)?;
    let [elements_path, telemetry_path, labels_path] = [0, 1, 2].map(|at| arguments.path(at));
    if telemetry_path.as_os_str() == standard_input::OPERAND {
        if arguments.has("--csv") {
            let mistake = "label: --csv takes no -: name a file, or /dev/stdin";
            return Err(COMMAND.mistake(mistake));
        }
        let streamed = Path::new(standard_input::PATH);
        label_output::check(&COMMAND, labels_path, &[elements_path, streamed])?;
        return label_stream::run(elements_path, beside, labels_path);
    }
    label_output::check(&COMMAND, labels_path, &[elements_path, telemetry_path])?;
    let day = Day::read(elements_path, beside, telemetry_path, arguments.has("--csv"))?;
    let file = match label_to_vec(&day.elements.elements, &day.telemetry.bytes) {
        Ok(file) => file,
        Err(refused) => {
            stdout::print(&format!("{refused}\n"))?;
            return Err(refused_day::failure(&day, 0, refused));
        }
    };
    let counts = LabelFile::read(&file).expect("what labelling wrote reads back").counts();
    label_output::write(labels_path, &file, "", counts)
}
