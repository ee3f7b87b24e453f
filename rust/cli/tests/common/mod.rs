//! Runs the command in a folder of its own.

#![allow(dead_code)]

use std::env;
use std::ffi::OsStr;
use std::fs;
use std::path::{Path, PathBuf};
use std::process::{self, Command, Output, Stdio};
use std::sync::atomic::{AtomicU32, Ordering};

use yurdelmiz::Form;

pub const COMMAND: &str = env!("CARGO_BIN_EXE_yurdelmiz");

/// The example's elements, with comments.
pub const EXAMPLE: &str = include_str!("../../../../examples/oscar10/elements.txt");

/// The example's telemetry, 960 records.
pub const TELEMETRY: &[u8] = include_bytes!("../../../../examples/oscar10/telemetry.bin");

/// Its labels, which are those of the independent reference.
pub const LABELS: &[u8] = include_bytes!("../../../../tests/command/oscar10.labels");

pub const LABELLED: &str = "labelled 960 training 227 test 267\n";

/// The example's elements, one a line.
pub fn elements() -> String {
    let lines = EXAMPLE.lines().filter(|line| !line.starts_with('#'));
    lines.map(|line| format!("{line}\n")).collect()
}

/// The example's elements with one piece of text in place of another, which must be there.
pub fn changed(from: &str, to: &str) -> String {
    let text = elements();
    assert!(text.contains(from), "{from}");
    text.replacen(from, to, 1)
}

/// A folder that goes with the test.
pub struct Folder(PathBuf);

impl Folder {
    pub fn new() -> Folder {
        static NUMBER: AtomicU32 = AtomicU32::new(0);
        let number = NUMBER.fetch_add(1, Ordering::Relaxed);
        let path = env::temp_dir().join(format!("yurdelmiz-{}-{number}", process::id()));
        fs::create_dir(&path).unwrap();
        Folder(path)
    }

    /// With the example's `elements` and `telemetry`.
    pub fn with_example() -> Folder {
        let folder = Folder::new();
        folder.write("elements", elements());
        folder.write("telemetry", TELEMETRY);
        folder
    }

    pub fn path(&self, name: impl AsRef<Path>) -> PathBuf {
        self.0.join(name)
    }

    pub fn write(&self, name: &str, bytes: impl AsRef<[u8]>) {
        fs::write(self.path(name), bytes).unwrap();
    }

    pub fn read(&self, name: &str) -> Vec<u8> {
        fs::read(self.path(name)).unwrap()
    }

    pub fn has(&self, name: &str) -> bool {
        fs::symlink_metadata(self.path(name)).is_ok()
    }

    /// Every name in the folder, those of temporary files among them.
    pub fn names(&self) -> Vec<String> {
        let entries = fs::read_dir(&self.0).unwrap();
        let mut names: Vec<String> =
            entries.map(|entry| entry.unwrap().file_name().into_string().unwrap()).collect();
        names.sort();
        names
    }

    /// The command with these words, in this folder.
    pub fn command<W: AsRef<OsStr>>(&self, words: impl IntoIterator<Item = W>) -> Command {
        let mut command = Command::new(COMMAND);
        command.args(words).current_dir(&self.0).stdin(Stdio::null());
        command
    }

    pub fn run<W: AsRef<OsStr>>(&self, words: impl IntoIterator<Item = W>) -> Run {
        Run::of(self.command(words).output().unwrap())
    }

    /// A script of the shell, in which "$@" is the command with its words.
    pub fn shell(&self, script: &str, words: &[&str]) -> Run {
        let mut command = Command::new("sh");
        command.args(["-c", script, "sh", COMMAND]).args(words);
        Run::of(command.current_dir(&self.0).stdin(Stdio::null()).output().unwrap())
    }

    pub fn label(&self) -> Run {
        self.run(["label", "elements", "telemetry", "out"])
    }
}

impl Drop for Folder {
    fn drop(&mut self) {
        let _ = fs::remove_dir_all(&self.0);
    }
}

#[derive(Debug)]
pub struct Run {
    pub status: Option<i32>,
    pub stdout: String,
    pub stderr: String,
}

impl Run {
    pub fn of(output: Output) -> Run {
        Run {
            status: output.status.code(),
            stdout: String::from_utf8(output.stdout).unwrap(),
            stderr: String::from_utf8(output.stderr).unwrap(),
        }
    }

    /// Status and standard output.
    #[track_caller]
    pub fn is(&self, status: i32, stdout: &str) -> &Run {
        assert_eq!((self.status, &*self.stdout), (Some(status), stdout), "{}", self.stderr);
        self
    }

    #[track_caller]
    pub fn fails(&self, status: i32) -> &Run {
        assert_eq!(self.status, Some(status), "{self:?}");
        self
    }

    /// Parts of standard error.
    #[track_caller]
    pub fn tells(&self, parts: &[&str]) -> &Run {
        for part in parts {
            assert!(self.stderr.contains(part), "'{part}' is not in:\n{}", self.stderr);
        }
        assert!(!self.stderr.contains("panicked"), "{}", self.stderr);
        self
    }
}

/// A label file of its labels' bytes, with the trailer of 24 bytes that they make.
pub fn label_file(labels: &[[u8; 24]]) -> Vec<u8> {
    label_file_in(Form::Bytes24, labels)
}

/// The same with a trailer of this form.
pub fn label_file_in(form: Form, labels: &[[u8; 24]]) -> Vec<u8> {
    let count = |wanted: fn(&[u8; 24]) -> bool| labels.iter().filter(|label| wanted(label)).count();
    let (training, test) = (count(|label| label[12] == 1), count(|label| label[12] == 2));
    let mut numbers = vec![labels.len(), training, test];
    if form == Form::Bytes24 {
        numbers.push(count(|label| label[13] == 1));
        numbers.push(count(|label| label[13] == 1 && label[12] == 2));
    }
    numbers.push(form.distance(labels.len()));
    let trailer = numbers.into_iter().flat_map(|number| (number as u32).to_le_bytes());
    labels.concat().into_iter().chain(trailer).collect()
}

/// The example's labels with the trailer of 16 bytes.
pub fn labels_with_16_bytes() -> Vec<u8> {
    let body = &LABELS[..LABELS.len() - Form::Bytes24.size()];
    let labels: Vec<[u8; 24]> =
        body.chunks_exact(24).map(|label| label.try_into().unwrap()).collect();
    label_file_in(Form::Bytes16, &labels)
}

/// The label of document 01's listing: 1990-01-01 00:00:00, revolution 17, training, dark, 10 watts.
pub const LABEL: [u8; 24] = [
    0x80, 0x51, 0x01, 0, 0, 0, 0, 0, 0x11, 0, 0, 0, 1, 1, 1, 0, 0xff, 0xff, 0xff, 0xff, 0, 0, 0x20,
    0x41,
];

/// A label with the bytes from `at` on in place of its own.
pub fn label_with(at: usize, bytes: &[u8]) -> [u8; 24] {
    let mut label = LABEL;
    label[at..at + bytes.len()].copy_from_slice(bytes);
    label
}
