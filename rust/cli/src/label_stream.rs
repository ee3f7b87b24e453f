//! Telemetry on standard input labelled as it comes, a packet a read.

use std::io::Read;
use std::path::Path;

use yurdelmiz::{Counts, Day, Form, Refused};

use crate::day_input;
use crate::elements_input::{ElementsFile, ElementsInput};
use crate::failure::Failure;
use crate::malformed::Swapped;
use crate::telemetry_input::Telemetry;
use crate::two_line::AxisAndRates;
use crate::{label_output, refused_day, standard_input, stdout};

/// The most bytes of a packet: more than a day has, so that telemetry that is too long and comes at once is
/// refused for that, as a file is.
const PACKET: usize = 65_536;

/// Labels standard input. The elements are told and opened before anything of it is read.
pub fn run(
    elements_path: &Path,
    beside: Option<AxisAndRates>,
    labels_path: &Path,
) -> Result<(), Failure> {
    let elements_file = ElementsFile::read(elements_path, beside, Swapped::Telemetry)?;
    let mut input = standard_input::open()?;
    let (file, counts) = label(elements_file.take()?, &mut input)?;
    label_output::write(labels_path, &file, "", counts)
}

/// The label file of all that comes, and its counts.
fn label(elements: ElementsInput, input: &mut impl Read) -> Result<(Vec<u8>, Counts), Failure> {
    let mut bytes = Vec::new();
    let mut day = match Day::open(&elements.elements) {
        Ok(day) => day,
        Err(refusal) => {
            let telemetry = Telemetry::streamed(bytes, false);
            return Err(told(elements, telemetry, Refused { refusal, place: 0 }));
        }
    };
    let mut file = Vec::new();
    let mut room = vec![0; PACKET];
    loop {
        let packet = standard_input::read(input, &mut room)?;
        if packet.is_empty() {
            break;
        }
        // Kept for a message: a record may have begun in an earlier packet.
        bytes.extend_from_slice(packet);
        match day.packet_to_vec(packet) {
            Ok(labels) => file.extend(labels),
            Err(refused) => {
                return Err(told(elements, Telemetry::streamed(bytes, false), refused));
            }
        }
    }
    let mut trailer = [0; Form::WRITTEN.size()];
    match day.close(&mut trailer) {
        Ok(counts) => {
            file.extend(trailer);
            Ok((file, counts))
        }
        Err(refused) => Err(told(elements, Telemetry::streamed(bytes, true), refused)),
    }
}

/// Prints a refusal, and says why.
fn told(elements: ElementsInput, telemetry: Telemetry, refused: Refused) -> Failure {
    match stdout::print(&format!("{refused}\n")) {
        Ok(()) => refused_day::failure(&day_input::Day { elements, telemetry }, 0, refused),
        Err(failure) => failure,
    }
}

#[cfg(test)]
mod tests {
    use std::collections::VecDeque;
    use std::io;

    use yurdelmiz::{label_to_vec, parse_elements};

    use super::*;
    use crate::failure::Status;

    const ELEMENTS: &str = include_str!("../../../examples/oscar10/elements.txt");
    const TELEMETRY: &[u8] = include_bytes!("../../../examples/oscar10/telemetry.bin");

    fn elements() -> ElementsInput<'static> {
        let text = ELEMENTS.as_bytes().to_vec();
        let elements = parse_elements(&text).unwrap();
        ElementsInput::of_text(Path::new("elements"), text, elements)
    }

    /// What each read gives, and then the end.
    struct Reads(VecDeque<io::Result<Vec<u8>>>);

    impl Read for Reads {
        fn read(&mut self, room: &mut [u8]) -> io::Result<usize> {
            let bytes = self.0.pop_front().unwrap_or(Ok(Vec::new()))?;
            room[..bytes.len()].copy_from_slice(&bytes);
            Ok(bytes.len())
        }
    }

    #[test]
    fn interrupted_reads() {
        let mut reads = VecDeque::new();
        for piece in TELEMETRY.chunks(1_001) {
            for _ in 0..3 {
                reads.push_back(Err(io::ErrorKind::Interrupted.into()));
            }
            reads.push_back(Ok(piece.to_vec()));
        }
        reads.push_back(Err(io::ErrorKind::Interrupted.into()));
        let (file, counts) = label(elements(), &mut Reads(reads)).unwrap();
        assert!(file == label_to_vec(&elements().elements, TELEMETRY).unwrap());
        assert_eq!((counts.labels, counts.training, counts.test), (960, 227, 267));
    }

    /// Labels of what came before are not kept.
    #[test]
    fn a_read_that_fails() {
        let error = io::Error::from_raw_os_error(5);
        let mut reads = Reads([Ok(TELEMETRY.to_vec()), Err(error)].into());
        let failure = label(elements(), &mut reads).unwrap_err();
        assert_eq!(failure.status, Status::File);
        let told = format!("{failure:?}");
        assert!(told.contains("standard input: cannot be read: Input/output error"), "{told}");
    }
}
