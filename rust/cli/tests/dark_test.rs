//! `dark-test`: a line for each file, whatever the others are, and how many had no answer.

mod common;

use std::ffi::OsStr;
use std::fs::{self, File, Permissions};
use std::io;
use std::os::unix::ffi::OsStrExt;
use std::os::unix::fs::{symlink, FileExt, MetadataExt, PermissionsExt};
use std::os::unix::net::UnixListener;
use std::process::Command;

use common::{label_file, label_file_in, label_with, labels_with_16_bytes, Folder, LABEL, LABELS};
use yurdelmiz::Form;

const NO_FILE: &str = "cannot be read: No such file or directory";
const NO_LENGTH: &str =
    "cannot be read: it is a device, a pipe or a socket, and has no length: name a file";

/// A dark label on the test side.
fn dark_test_label() -> [u8; 24] {
    label_with(8, &[0x41, 0, 0, 0, 2])
}

/// With `day`, its figure 7; `short`, the same with the trailer of 16 bytes; and `bad`, without one.
fn folder() -> Folder {
    let folder = Folder::new();
    folder.write("day", LABELS);
    folder.write("short", labels_with_16_bytes());
    folder.write("bad", &LABELS[..100]);
    folder
}

#[test]
fn a_line_a_file() {
    let folder = folder();
    folder.write("no labels", label_file(&[]));
    let run = folder.run(["dark-test", "day", "short", "no labels"]);
    assert_eq!(run.is(0, "day\t7\nshort\tnot held\nno labels\t0\n").stderr, "");
    // In the order of the words, and as often.
    let run = folder.run(["dark-test", "short", "day", "./day", "day"]);
    assert_eq!(run.is(0, "short\tnot held\nday\t7\n./day\t7\nday\t7\n").stderr, "");
    folder.run(["dark-test", "short"]).is(0, "short\tnot held\n");
}

/// The figure of every file that `list` prints, with any bytes ahead.
#[test]
fn the_figure_of_list() {
    let folder = Folder::new();
    for number in [0, 1, 2, 300, 1_022] {
        let labels = [vec![dark_test_label(); number], vec![LABEL, label_with(13, &[0])]].concat();
        for ahead in [0, 1, 70_000] {
            folder.write("day", [vec![7; ahead], label_file(&labels)].concat());
            folder.run(["dark-test", "day"]).is(0, &format!("day\t{number}\n"));
            let listed = folder.run(["list", "--json", "day"]).stdout;
            assert!(listed.contains(&format!("\"dark_test\": {number}}}")), "{}", &listed[..100]);
            folder.write("day", [vec![7; ahead], label_file_in(Form::Bytes16, &labels)].concat());
            folder.run(["dark-test", "day"]).is(0, "day\tnot held\n");
        }
    }
}

/// 12, and only 12: no label is looked at.
#[test]
fn refused() {
    let folder = folder();
    folder.write("empty", "");
    folder.write("15", [0; 15]);
    folder.write("16", label_file_in(Form::Bytes16, &[]));
    folder.write("23", [&[7; 7], &label_file_in(Form::Bytes16, &[])[..]].concat());
    folder.write("cut", &LABELS[1..]);
    let mut file = label_file(&[dark_test_label()]);
    file[15] = 1;
    folder.write("13", &file);
    folder.run(["list", "13"]).is(1, "refused 13 at 0\n");
    let last = file.len() - 24;
    file[last + 16] = 2;
    folder.write("dark", &file);
    folder.run(["list", "dark"]).is(1, "refused 12 at 0\n");
    let lines = "day\t7\nbad\trefused 12\nempty\trefused 12\n15\trefused 12\n16\tnot held\n\
                 23\tnot held\ncut\trefused 12\n13\t1\ndark\trefused 12\nshort\tnot held\n";
    let files = lines.lines().map(|line| line.split_once('\t').unwrap().0);
    let run = folder.run(["dark-test"].into_iter().chain(files));
    assert_eq!(run.is(1, lines).stderr, "yurdelmiz: refused 5 of 10 files\n");
    for name in ["bad", "empty", "15", "cut", "dark"] {
        let run = folder.run(["dark-test", name]);
        assert_eq!(
            run.is(1, &format!("{name}\trefused 12\n")).stderr,
            "yurdelmiz: refused 1 of 1 files\n"
        );
        folder.run(["list", name]).is(1, "refused 12 at 0\n");
    }
}

/// Each has its line, and the files after it theirs.
#[test]
fn what_cannot_be_read() {
    let folder = folder();
    fs::create_dir(folder.path("folder")).unwrap();
    symlink("nowhere", folder.path("dangling")).unwrap();
    symlink("day", folder.path("link")).unwrap();
    assert!(Command::new("mkfifo").arg(folder.path("pipe")).status().unwrap().success());
    symlink("pipe", folder.path("link to a pipe")).unwrap();
    let _socket = UnixListener::bind(folder.path("socket")).unwrap();
    let mut lines = String::new();
    let mut words = vec!["dark-test"];
    for (name, answer) in [
        ("day", "7"),
        ("none", NO_FILE),
        ("folder", "cannot be read: it is a folder: name a file"),
        ("folder/", "cannot be read: it is a folder: name a file"),
        ("day/", "cannot be read: Not a directory"),
        ("day/x", "cannot be read: Not a directory"),
        ("folder/none", NO_FILE),
        ("dangling", NO_FILE),
        ("pipe", NO_LENGTH),
        ("link to a pipe", NO_LENGTH),
        ("socket", NO_LENGTH),
        ("/dev/null", NO_LENGTH),
        ("bad", "refused 12"),
        ("link", "7"),
        ("short", "not held"),
    ] {
        lines.push_str(&format!("{name}\t{answer}\n"));
        words.push(name);
    }
    // A pipe without a writer is not waited for.
    let run = folder.shell("timeout 30 \"$@\"", &words);
    let told = "yurdelmiz: could not read 11 of 15 files, refused 1 of 15 files\n";
    assert_eq!(run.is(3, &lines).stderr, told);
}

#[test]
fn statuses() {
    let folder = folder();
    let (day, bad, none) = ("day\t7\n", "bad\trefused 12\n", format!("none\t{NO_FILE}\n"));
    for (names, status, lines, told) in [
        (&["day"][..], 0, day.to_owned(), ""),
        (&["bad", "day"], 1, format!("{bad}{day}"), "refused 1 of 2 files"),
        (&["none", "day"], 3, format!("{none}{day}"), "could not read 1 of 2 files"),
        (
            &["none", "bad"],
            3,
            format!("{none}{bad}"),
            "could not read 1 of 2 files, refused 1 of 2 files",
        ),
        (
            &["bad", "none"],
            3,
            format!("{bad}{none}"),
            "could not read 1 of 2 files, refused 1 of 2 files",
        ),
    ] {
        let run = folder.run(["dark-test"].iter().chain(names));
        let told = if told.is_empty() { String::new() } else { format!("yurdelmiz: {told}\n") };
        assert_eq!(run.is(status, &lines).stderr, told);
    }
}

/// Root may read everything; another user may not.
#[test]
fn permissions_denied() {
    let folder = folder();
    fs::set_permissions(folder.path("day"), Permissions::from_mode(0o000)).unwrap();
    let run = folder.run(["dark-test", "day", "short"]);
    if fs::metadata(folder.path("day")).unwrap().uid() == 0 {
        run.is(0, "day\t7\nshort\tnot held\n");
    } else {
        run.is(3, "day\tcannot be read: Permission denied\nshort\tnot held\n");
    }
}

/// A line stays a line, and two names stay two.
#[test]
fn names() {
    let folder = Folder::new();
    let names: [(&[u8], &str); 8] = [
        (b"two words", "two words"),
        ("Tag 1°".as_bytes(), "Tag 1°"),
        (b"a\nb", r"a\nb"),
        (br"a\nb", r"a\\nb"),
        (b"a\tb", r"a\tb"),
        (b"\x1b[2J", r"\u{1b}[2J"),
        (b"\xff", r"\xff"),
        (br"\xff", r"\\xff"),
    ];
    let mut lines = String::new();
    for (number, (name, shown)) in names.iter().enumerate() {
        let path = folder.path(OsStr::from_bytes(name));
        fs::write(path, label_file(&vec![dark_test_label(); number])).unwrap();
        lines.push_str(&format!("{shown}\t{number}\n"));
    }
    let words = names.iter().map(|(name, _)| OsStr::from_bytes(name));
    folder.run([OsStr::new("dark-test")].into_iter().chain(words)).is(0, &lines);
    fs::write(folder.path("--help"), LABELS).unwrap();
    folder.run(["dark-test", "--", "--help"]).is(0, "--help\t7\n");
    folder.run(["dark-test", "./--help"]).is(0, "./--help\t7\n");
}

/// Far more bytes than could be read: the last ones alone are.
#[test]
fn a_file_of_a_tebibyte() {
    const TEBIBYTE: u64 = 1 << 40;
    let folder = Folder::new();
    for (name, form) in [("24", Form::Bytes24), ("16", Form::Bytes16)] {
        let labels = label_file_in(form, &[dark_test_label(); 1_024]);
        let file = File::create(folder.path(name)).unwrap();
        file.set_len(TEBIBYTE).unwrap();
        file.write_all_at(&labels, TEBIBYTE - labels.len() as u64).unwrap();
    }
    let file = File::create(folder.path("zeros")).unwrap();
    file.set_len(TEBIBYTE).unwrap();
    let lines = "24\t1024\n16\tnot held\nzeros\trefused 12\n";
    folder.run(["dark-test", "24", "16", "zeros"]).is(1, lines);
}

#[test]
fn ten_thousand_files() {
    let folder = Folder::new();
    let files = [
        (label_file(&[dark_test_label(); 3]), "3"),
        (label_file(&[LABEL]), "0"),
        (label_file_in(Form::Bytes16, &[LABEL]), "not held"),
        (vec![0; 40], "refused 12"),
    ];
    let mut words = vec!["dark-test".to_owned()];
    let mut lines = String::new();
    for number in 0..10_000 {
        let (bytes, answer) = &files[number % 4];
        let name = format!("day-{number}.labels");
        folder.write(&name, bytes);
        lines.push_str(&format!("{name}\t{answer}\n"));
        words.push(name);
    }
    let run = folder.run(&words);
    assert_eq!(run.status, Some(1));
    assert_eq!(run.stderr, "yurdelmiz: refused 2,500 of 10,000 files\n");
    assert!(run.stdout == lines, "other lines");
}

/// A full disk is no success, and a reader that went away is no panic; neither has a verdict.
#[test]
fn standard_output() {
    let folder = folder();
    let few = ["dark-test", "day", "bad", "none"];
    let many: Vec<&str> = ["dark-test"].into_iter().chain(["day", "bad"].repeat(2_000)).collect();
    for words in [&few[..], &many] {
        let run = folder.shell("\"$@\" >/dev/full", words);
        run.is(3, "");
        assert_eq!(run.stderr, "yurdelmiz: standard output: No space left on device\n");
        let (reader, writer) = io::pipe().unwrap();
        drop(reader);
        let output = folder.command(words).stdout(writer).output().unwrap();
        assert_eq!((output.status.code(), output.stderr), (Some(3), vec![]));
    }
    // A limit on the file's size, within the lines.
    let run = folder.shell("ulimit -f 8; \"$@\" >lines", &many);
    run.is(3, "");
    assert_eq!(run.stderr, "yurdelmiz: standard output: File too large\n");
    assert!(folder.read("lines").starts_with(b"day\t7\nbad\trefused 12\nday\t7\n"));
}
