//! `salvage DAMAGED LABELS`

use yurdelmiz::{read, salvage_to_vec, Form, Label, LabelFile, Salvaged};

use crate::arguments::{Arguments, Command};
use crate::decimal::grouped;
use crate::failure::{note, Failure};
use crate::input::{self, looks_like_text, First};
use crate::refused_file::field_fault;
use crate::{label_output, output, quote, stdout};

pub const COMMAND: Command = Command {
    name: "salvage",
    operands: &["DAMAGED", "LABELS"],
    flags: &[],
    help: include_str!("../help/salvage.txt"),
    run,
};

fn run(arguments: &Arguments) -> Result<(), Failure> {
    let [damaged_path, labels_path] = [0, 1].map(|at| arguments.path(at));
    label_output::check(&COMMAND, labels_path, &[damaged_path])?;
    // With the trailer behind the most labels, by which a whole file is known.
    let damaged = input::read_first(damaged_path, LabelFile::LONGEST)?;
    let start = &damaged.bytes[..damaged.bytes.len().min(Salvaged::MOST_BYTES)];
    let (file, salvaged) = salvage_to_vec(start);
    let behind = damaged.length - start.len() as u64;
    let salvaged = Salvaged { dropped: salvaged.dropped + behind, ..salvaged };
    output::write(labels_path, &file)?;
    let Salvaged { labels, dropped } = salvaged;
    let dropping = (dropped > 0).then(|| why_dropped(&damaged, salvaged));
    for why in [dropping, zeros(&start[..labels as usize * Label::SIZE])].into_iter().flatten() {
        note(format!("{}: {why}", quote::path(damaged_path)));
    }
    stdout::print_after(labels_path, &format!("kept {labels} dropped {dropped}\n"))
}

/// Why the labels end where they do.
fn why_dropped(damaged: &First, salvaged: Salvaged) -> String {
    let Salvaged { labels, dropped } = salvaged;
    if let Some(form) = trailer_behind(&damaged.bytes, labels) {
        let (size, written) = (form.size(), Form::WRITTEN.size());
        let trailer =
            format!("its trailer, of {size} bytes, is dropped, and one of {written} is written");
        return if dropped == size as u64 {
            format!("it is a whole label file, and not damaged; {trailer}")
        } else {
            format!(
                "it begins with a whole label file; {trailer}, and all behind it is dropped too"
            )
        };
    }
    if labels as usize == LabelFile::MOST_LABELS {
        return "1,024 labels are the most that a file has; all behind them is dropped".to_owned();
    }
    let kept = labels as usize * Label::SIZE;
    let place = place(labels as usize);
    let why = match damaged.bytes.get(kept..kept + Label::SIZE) {
        None => format!("it ends within {place}, or within its trailer"),
        Some(last) if dropped == Label::SIZE as u64 => {
            format!("{place}, or a damaged trailer: {}", field_fault(last))
        }
        Some(label) => format!("{place}: {}; it and all behind it is dropped", field_fault(label)),
    };
    if labels == 0 && looks_like_text(&damaged.bytes) {
        return format!("{why}; it is text, and no label file");
    }
    why
}

fn place(label: usize) -> String {
    format!("label {label} (from 0, at byte {})", grouped((label * Label::SIZE) as u64))
}

/// A warning of labels that were perhaps never written: 24 zeros keep the field rules.
fn zeros(labels: &[u8]) -> Option<String> {
    let is_zeros = |label: &[u8]| label.iter().all(|byte| *byte == 0);
    let labels = || labels.chunks_exact(Label::SIZE);
    let first = labels().position(is_zeros)?;
    let number = labels().filter(|label| is_zeros(label)).count();
    Some(format!(
        "labels kept that are all zeros: {}, the first {}; zeros keep the rules, and a disk leaves them where \
         nothing was written: the label ahead of them may be cut as well",
        grouped(number as u64),
        place(first)
    ))
}

/// The trailer that the library accepts behind the labels kept.
fn trailer_behind(bytes: &[u8], labels: u32) -> Option<Form> {
    Form::ALL.into_iter().find(|form| {
        let size = form.distance(labels as usize);
        read(bytes, size).is_ok_and(|(counts, found)| (counts.labels, found) == (labels, *form))
    })
}
