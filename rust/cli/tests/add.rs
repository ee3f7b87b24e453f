//! `add`: the file that `label` writes at once, what is kept, and refusals that leave LABELS as it is.

mod common;

use std::fs::{self, Permissions};
use std::os::unix::fs::{symlink, MetadataExt, PermissionsExt};

use common::{changed, label_file, labels_with_16_bytes, Folder, Run, LABEL, LABELS, TELEMETRY};
use yurdelmiz::Form;

/// What `add` says of the example, after so many of its records were added.
fn added(records: usize) -> String {
    format!("added {records} labelled 960 training 227 test 267\n")
}

/// The example's elements, the first records labelled in `out`, and the others in `telemetry`.
fn cut_at(records: usize) -> Folder {
    let folder = Folder::with_example();
    let (first, rest) = TELEMETRY.split_at(16 * records);
    folder.write("telemetry", first);
    folder.label().fails(0);
    folder.write("telemetry", rest);
    folder
}

fn add(folder: &Folder) -> Run {
    folder.run(["add", "elements", "telemetry", "out"])
}

#[test]
fn two_parts_make_the_day() {
    for records in [0, 1, 480, 720, 959, 960] {
        let folder = cut_at(records);
        add(&folder).is(0, &added(960 - records)).tells(&["eccentricity 0.6100000\n"]);
        assert!(folder.read("out") == LABELS, "cut at {records}");
        assert_eq!(folder.names(), ["elements", "out", "telemetry"]);
    }
}

/// From an empty label file, in parts that are CSV and records, one of them empty.
#[test]
fn many_parts_make_the_day() {
    for form in Form::ALL {
        let folder = Folder::with_example();
        folder.write("out", common::label_file_in(form, &[]));
        folder.write("one.bin", &TELEMETRY[..16 * 100]);
        folder.write("two.csv", "time,volts,amperes\n");
        let mut csv = "time,volts,amperes\n".to_owned();
        for record in TELEMETRY[16 * 100..16 * 300].chunks_exact(16) {
            let time = i64::from_le_bytes(record[..8].try_into().unwrap());
            let [volts, amperes] =
                [8, 12].map(|at| f32::from_le_bytes(record[at..at + 4].try_into().unwrap()));
            csv.push_str(&format!("{time},{volts},{amperes}\n"));
        }
        folder.write("three", csv);
        folder.write("four", &TELEMETRY[16 * 300..]);
        folder.run(["add", "elements", "one.bin", "out"]).fails(0);
        folder.run(["add", "elements", "two.csv", "out"]).fails(0);
        folder.run(["add", "--csv", "elements", "three", "out"]).fails(0);
        folder.run(["add", "elements", "four", "out"]).is(0, &added(660));
        assert!(folder.read("out") == LABELS, "{form:?}");
    }
}

/// No record brings the trailer of 16 bytes to 24, and changes nothing else.
#[test]
fn nothing_added() {
    let folder = Folder::with_example();
    folder.write("telemetry", "");
    for file in [labels_with_16_bytes(), LABELS.to_vec()] {
        folder.write("out", &file);
        add(&folder).is(0, &added(0));
        assert!(folder.read("out") == LABELS);
    }
}

/// Bytes of others ahead of the first label, fewer and more than a file has from it on.
#[test]
fn bytes_ahead_are_kept() {
    for ahead in [1, 8, 24, 30_000, 1_000_000] {
        let folder = cut_at(720);
        let ahead: Vec<u8> = (0..ahead).map(|byte| (byte % 251) as u8).collect();
        folder.write("out", [&ahead, &folder.read("out")[..]].concat());
        add(&folder).is(0, &added(240));
        assert!(folder.read("out") == [&ahead, LABELS].concat());
    }
}

/// LABELS stays byte for byte, and nothing is left beside it.
#[track_caller]
fn refused(folder: &Folder, verdict: &str, told: &[&str]) {
    let before = folder.read("out");
    let run = add(folder);
    assert!(run.stdout.starts_with(&format!("{verdict}: ")), "{run:?}");
    assert_eq!(run.stdout.lines().count(), 1);
    run.fails(1).tells(told);
    assert!(folder.read("out") == before);
    assert_eq!(folder.names(), ["elements", "out", "telemetry"]);
}

/// The place counts the labels of the file; what is said of the record has its own number.
#[test]
fn a_refused_record() {
    let folder = cut_at(720);
    let mut rest = TELEMETRY[16 * 720..].to_vec();
    rest[48..56].copy_from_slice(&0i64.to_le_bytes());
    folder.write("telemetry", &rest);
    refused(
        &folder,
        "refused 8 at 723",
        &[
            "yurdelmiz: telemetry, record 3 (from 0, at byte 48), behind the file's 720 labels: the record's time, ",
            "1989-12-31 00:00:00, is 1,601 days 22:15:00 after the epoch, 1985-08-12 01:45:00",
        ],
    );
    folder.write("day.csv", "time,volts,amperes\n\n1985-08-29T13:45:00Z,14,1\n0,14,1\n");
    let before = folder.read("out");
    let run = folder.run(["add", "elements", "day.csv", "out"]);
    assert!(run.stdout.starts_with("refused 8 at 721: "), "{run:?}");
    run.fails(1).tells(&["day.csv, line 4 (record 1, from 0), behind the file's 720 labels: "]);
    assert!(folder.read("out") == before);
}

/// Labels and records together are at most 1,024.
#[test]
fn too_many_records() {
    let folder = cut_at(960);
    folder.write("telemetry", &TELEMETRY[..16 * 65]);
    refused(
        &folder,
        "refused 10 at 0",
        &["telemetry: 65 records, and the file has 960 labels: it has room for 64 more, 1,024 in all"],
    );
    folder.write("telemetry", &TELEMETRY[..16 * 64 - 1]);
    refused(
        &folder,
        "refused 10 at 0",
        &["telemetry: 1,023 bytes are 63 records of 16 and 15 more"],
    );
    folder.write("telemetry", vec![0; 16 * 1_025]);
    refused(&folder, "refused 10 at 0", &["telemetry: 1,025 records, and the file has 960 labels"]);
    folder.write("telemetry", &TELEMETRY[..16 * 64]);
    let run = add(&folder);
    assert!(run.stdout.starts_with("added 64 labelled 1024 "), "{run:?}");
}

/// 12 and 13 are told as `list` tells them, with the name of the label file.
#[test]
fn refused_files() {
    let folder = cut_at(720);
    let sound = folder.read("out");
    let told_by_list = |folder: &Folder| folder.run(["list", "out"]).stderr;
    let mut wrong_label = sound.clone();
    wrong_label[24 * 5 + 15] = 1;
    let mut wrong_count = sound.clone();
    wrong_count[24 * 720 + 12] ^= 1;
    for (file, verdict, told) in [
        (sound[..sound.len() - 1].to_vec(), "refused 12 at 0", "out: "),
        (vec![], "refused 12 at 0", "out: the file is empty"),
        (sound[24..].to_vec(), "refused 12 at 0", "its start is missing"),
        (wrong_label, "refused 13 at 5", "out: label 5 (from 0, "),
        (wrong_count, "refused 13 at 720", "out: the trailer says "),
        (common::EXAMPLE.into(), "refused 12 at 0", "it is text, and no label file"),
    ] {
        folder.write("out", &file);
        refused(&folder, verdict, &[told, &told_by_list(&folder)]);
    }
}

/// The elements come first, then the file, then the telemetry.
#[test]
fn order_of_the_refusals() {
    let folder = cut_at(720);
    folder.write("telemetry", vec![0; 17]);
    let sound = folder.read("out");
    folder.write("out", "");
    folder.write("elements", changed("eccentricity 6100000", "eccentricity 9000001"));
    refused(&folder, "refused 1 at 0", &["elements, line 1: the eccentricity is above 0.9"]);
    folder.write("elements", common::elements());
    refused(&folder, "refused 12 at 0", &["out: the file is empty"]);
    folder.write("out", sound);
    refused(&folder, "refused 10 at 0", &["telemetry: 17 bytes"]);
}

#[test]
fn malformed_inputs() {
    let folder = cut_at(720);
    let before = folder.read("out");
    folder.write("bad.csv", "time,volts,amperes\n0,x,1\n");
    let run = folder.run(["add", "elements", "bad.csv", "out"]);
    assert!(run.stdout.starts_with("malformed line 2 of the telemetry: volts"), "{run:?}");
    run.fails(1).tells(&["bad.csv, line 2: volts"]);
    folder.write("elements", changed("eccentricity 6100000", "eccentricity 0.61"));
    let run = add(&folder);
    assert!(run.stdout.starts_with("malformed line 1: "), "{run:?}");
    run.fails(1).tells(&["elements, line 1: eccentricity has a decimal point"]);
    assert!(folder.read("out") == before);
}

/// A label file that is not there, or cannot be replaced; an input that is not there.
#[test]
fn files_that_cannot_be_used() {
    let folder = Folder::with_example();
    fs::create_dir(folder.path("folder")).unwrap();
    folder.write("day", label_file(&[LABEL]));
    symlink("day", folder.path("link")).unwrap();
    let before = folder.names();
    for (words, told) in [
        (["elements", "telemetry", "none"], "none: cannot be read: No such file or directory"),
        (["elements", "telemetry", "folder"], "folder: cannot be written: it is a folder"),
        (["elements", "telemetry", "link"], "link: cannot be written: it is a symbolic link"),
        (["elements", "telemetry", "/dev/zero"], "/dev/zero: cannot be written: it is a device"),
        (["none", "telemetry", "day"], "none: cannot be read: No such file or directory"),
        (["elements", "none", "day"], "none: cannot be read: No such file or directory"),
    ] {
        folder.run([&["add"][..], &words].concat()).is(3, "").tells(&[told]);
        assert_eq!(folder.names(), before);
        assert_eq!(folder.read("day"), label_file(&[LABEL]));
    }
}

/// By its own name, by a hard link and through a symbolic link.
#[test]
fn labels_that_are_an_input() {
    let folder = cut_at(720);
    fs::hard_link(folder.path("out"), folder.path("hard")).unwrap();
    symlink("out", folder.path("soft")).unwrap();
    let before = folder.read("out");
    for words in [
        ["elements", "out", "out"],
        ["elements", "hard", "./out"],
        ["elements", "soft", "out"],
        ["out", "telemetry", "out"],
    ] {
        let run = folder.run([&["add"][..], &words].concat());
        run.is(2, "").tells(&[
            "out",
            "is read, and cannot be written as well",
            "usage: yurdelmiz add ",
        ]);
        assert!(folder.read("out") == before);
    }
}

#[test]
fn permissions_are_kept() {
    let folder = cut_at(720);
    fs::set_permissions(folder.path("out"), Permissions::from_mode(0o640)).unwrap();
    add(&folder).is(0, &added(240));
    assert_eq!(fs::metadata(folder.path("out")).unwrap().mode() & 0o7777, 0o640);
}

/// A disk that is full within the file leaves the labels as they were; a full standard output does not.
#[test]
fn no_room() {
    let folder = cut_at(720);
    let before = folder.read("out");
    let words = ["add", "elements", "telemetry", "out"];
    let run = folder.shell("ulimit -f 8; \"$@\"", &words);
    run.is(3, "").tells(&["out: cannot be written: File too large", "it is as it was"]);
    assert!(folder.read("out") == before);
    assert_eq!(folder.names(), ["elements", "out", "telemetry"]);
    let run = folder.shell("\"$@\" >/dev/full", &words);
    run.is(3, "").tells(&["out is written, but standard output: No space left on device"]);
    assert!(folder.read("out") == LABELS);
}
