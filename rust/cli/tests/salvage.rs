//! `salvage`: what is kept and said of files that are cut, damaged or whole; DAMAGED is never changed, and LABELS
//! appears whole or not at all.

mod common;

use std::fs::{self, File, Metadata, Permissions};
use std::io;
use std::os::unix::fs::{symlink, FileExt, MetadataExt, PermissionsExt};
use std::process::Command;

use common::{
    elements, label_file, label_file_in, label_with, labels_with_16_bytes, Folder, Run, EXAMPLE,
    LABEL, LABELLED, LABELS, TELEMETRY,
};
use yurdelmiz::Form;

const WORDS: [&str; 3] = ["salvage", "damaged", "out"];

/// A folder with these bytes as `damaged`.
fn damaged(bytes: impl AsRef<[u8]>) -> Folder {
    let folder = Folder::new();
    folder.write("damaged", bytes);
    folder
}

fn salvage(folder: &Folder) -> Run {
    folder.run(WORDS)
}

/// The label file of the example's first labels.
fn first(labels: usize) -> Vec<u8> {
    let labels = LABELS[..24 * labels].chunks_exact(24);
    label_file(&labels.map(|label| label.try_into().unwrap()).collect::<Vec<_>>())
}

/// What must not change of DAMAGED beside its bytes.
fn stamps(metadata: &Metadata) -> (u64, u32, i64, i64) {
    (metadata.ino(), metadata.mode(), metadata.mtime(), metadata.mtime_nsec())
}

/// Salvages `damaged`, and sees what is said, that DAMAGED stays as it was, and that `out` is this file, which
/// `list` prints.
#[track_caller]
fn kept(folder: &Folder, line: &str, told: &str, out: &[u8]) {
    let path = folder.path("damaged");
    let (bytes, before) = (folder.read("damaged"), stamps(&fs::metadata(&path).unwrap()));
    let run = salvage(folder);
    let told = if told.is_empty() { String::new() } else { format!("yurdelmiz: {told}\n") };
    assert_eq!(run.is(0, &format!("{line}\n")).stderr, told);
    assert!(folder.read("out") == out, "another file");
    assert!(folder.read("damaged") == bytes, "DAMAGED changed");
    assert_eq!(stamps(&fs::metadata(&path).unwrap()), before);
    assert_eq!(folder.names(), ["damaged", "out"]);
    folder.run(["list", "out"]).fails(0);
}

/// At the end of a label, and within one or within the trailer: every whole label is kept.
#[test]
fn cut() {
    for (labels, byte) in
        [(0, "0"), (1, "24"), (2, "48"), (480, "11,520"), (959, "23,016"), (960, "23,040")]
    {
        let whole = first(labels);
        let folder = damaged(&LABELS[..24 * labels]);
        kept(&folder, &format!("kept {labels} dropped 0"), "", &whole);
        for more in [1, 12, 16, 23] {
            let folder = damaged(&LABELS[..24 * labels + more]);
            let told = format!(
                "damaged: it ends within label {labels} (from 0, at byte {byte}), or within its trailer"
            );
            kept(&folder, &format!("kept {labels} dropped {more}"), &told, &whole);
        }
    }
}

/// The label, its byte and the rule that it breaks; no label behind it is kept.
#[test]
fn a_damaged_byte() {
    for (at, byte, labels, place, rule) in [
        (15, 1, 0, "label 0 (from 0, at byte 0)", "its byte 15 is 1, and is always 0"),
        (
            24 * 3 + 12,
            9,
            3,
            "label 3 (from 0, at byte 72)",
            "its side is 9, which is none, and rev",
        ),
        (24 * 500 + 13, 3, 500, "label 500 (from 0, at byte 12,000)", "its shade is 3, and 0 to 2"),
        (24 * 959 + 14, 7, 959, "label 959 (from 0, at byte 23,016)", "its reading is 7, and 0 to"),
    ] {
        for sound in [LABELS.to_vec(), labels_with_16_bytes()] {
            let mut bytes = sound;
            bytes[at] = byte;
            let folder = damaged(&bytes);
            let run = salvage(&folder);
            run.is(0, &format!("kept {labels} dropped {}\n", bytes.len() - 24 * labels));
            assert_eq!(run.stderr.lines().count(), 1, "{}", run.stderr);
            run.tells(&[&format!("yurdelmiz: damaged: {place}: {rule}")]);
            assert!(run.stderr.ends_with("; it and all behind it is dropped\n"), "{}", run.stderr);
            assert!(folder.read("out") == first(labels));
            assert!(folder.read("damaged") == bytes);
        }
    }
}

/// The last 24 bytes, which break a rule, may be either.
#[test]
fn a_damaged_trailer() {
    let mut bytes = LABELS.to_vec();
    bytes[23_040 + 12] ^= 1;
    let told = "damaged: label 960 (from 0, at byte 23,040), or a damaged trailer: ";
    let folder = damaged(&bytes);
    let run = salvage(&folder);
    run.is(0, "kept 960 dropped 24\n").tells(&[told]);
    assert_eq!(run.stderr.lines().count(), 1, "{}", run.stderr);
    assert!(folder.read("out") == LABELS);
    let mut bytes = labels_with_16_bytes();
    bytes[23_040 + 4] ^= 1;
    let told = "damaged: it ends within label 960 (from 0, at byte 23,040), or within its trailer";
    kept(&damaged(&bytes), "kept 960 dropped 16", told, LABELS);
}

/// It is said that nothing is wrong with it.
#[test]
fn a_whole_file() {
    let told = |size| {
        format!(
            "damaged: it is a whole label file, and not damaged; its trailer, of {size} bytes, is dropped, \
             and one of 24 is written"
        )
    };
    kept(&damaged(LABELS), "kept 960 dropped 24", &told(24), LABELS);
    kept(&damaged(labels_with_16_bytes()), "kept 960 dropped 16", &told(16), LABELS);
    for labels in [0, 1_024] {
        let labels = vec![LABEL; labels];
        let whole = label_file(&labels);
        for form in Form::ALL {
            let folder = damaged(label_file_in(form, &labels));
            let line = format!("kept {} dropped {}", labels.len(), form.size());
            kept(&folder, &line, &told(form.size()), &whole);
        }
    }
}

/// As many bytes behind a whole file as a block of the disk has, and a second file.
#[test]
fn bytes_behind_a_whole_file() {
    for (form, sound) in [(Form::Bytes24, LABELS.to_vec()), (Form::Bytes16, labels_with_16_bytes())]
    {
        for behind in [vec![0; 1], vec![0; 4_096], LABELS.to_vec()] {
            let size = form.size();
            let told = format!(
                "damaged: it begins with a whole label file; its trailer, of {size} bytes, is dropped, and \
                 one of 24 is written, and all behind it is dropped too"
            );
            let line = format!("kept 960 dropped {}", size + behind.len());
            kept(&damaged([sound.clone(), behind].concat()), &line, &told, LABELS);
        }
    }
}

#[test]
fn no_label() {
    let empty = label_file(&[]);
    kept(&damaged(""), "kept 0 dropped 0", "", &empty);
    let within = "damaged: it ends within label 0 (from 0, at byte 0), or within its trailer";
    kept(&damaged([0; 5]), "kept 0 dropped 5", within, &empty);
    let folder = damaged(EXAMPLE);
    let run = salvage(&folder);
    run.is(0, &format!("kept 0 dropped {}\n", EXAMPLE.len()));
    run.tells(&[
        "damaged: label 0 (from 0, at byte 0): its time, ",
        "; it is text, and no label file\n",
    ]);
    assert!(folder.read("out") == empty);
    let run = damaged("text").run(WORDS);
    run.is(0, "kept 0 dropped 4\n").tells(&[within, "; it is text, and no label file\n"]);
    // Bytes of others in front are no labels.
    let folder = damaged([&[7; 30], LABELS].concat());
    salvage(&folder).is(0, "kept 0 dropped 23094\n").tells(&["label 0 (from 0, at byte 0): "]);
    assert!(folder.read("out") == empty);
}

/// A disk that left zeros, at the end or between labels: they are kept as labels, and told.
#[test]
fn zeros() {
    let warning = |number, first| {
        format!(
            "damaged: labels kept that are all zeros: {number}, the first {first}; zeros keep the rules, and a \
             disk leaves them where nothing was written: the label ahead of them may be cut as well"
        )
    };
    let zero = [0; 24];
    let [first, second] = ["label 0 (from 0, at byte 0)", "label 1 (from 0, at byte 24)"];
    for (labels, number, place) in [
        (vec![LABEL, zero, zero], "2", second),
        (vec![LABEL, zero, LABEL], "1", second),
        (vec![zero], "1", first),
        (vec![zero; 1_024], "1,024", first),
    ] {
        let line = format!("kept {} dropped 0", labels.len());
        kept(&damaged(labels.concat()), &line, &warning(number, place), &label_file(&labels));
    }
    // Behind the reason why the labels end.
    let folder = damaged([&LABEL[..], &zero, &[0; 9]].concat());
    let ends = "damaged: it ends within label 2 (from 0, at byte 48), or within its trailer";
    let told = format!("{ends}\nyurdelmiz: {}", warning("1", second));
    kept(&folder, "kept 2 dropped 9", &told, &label_file(&[LABEL, zero]));
}

#[test]
fn over_the_most_labels() {
    let most = label_file(&[LABEL; 1_024]);
    let told = "damaged: 1,024 labels are the most that a file has; all behind them is dropped";
    for behind in [1, 16, 23, 24, 25, 48, 24_000] {
        let bytes = [LABEL.repeat(1_024), LABEL.repeat(1_000)[..behind].to_vec()].concat();
        kept(&damaged(bytes), &format!("kept 1024 dropped {behind}"), told, &most);
    }
    kept(&damaged(LABEL.repeat(1_024)), "kept 1024 dropped 0", "", &most);
    // A broken label is told, where it is not behind the most.
    let mut bytes = LABEL.repeat(1_030);
    bytes[24 * 1_024 + 15] = 1;
    kept(&damaged(&bytes), "kept 1024 dropped 144", told, &most);
    bytes[24 * 1_023 + 15] = 1;
    let folder = damaged(&bytes);
    salvage(&folder)
        .is(0, "kept 1023 dropped 168\n")
        .tells(&["label 1023 (from 0, at byte 24,552): its byte 15 is 1"]);
}

/// Far more bytes than could be read: what is dropped is counted by the length.
#[test]
fn a_file_of_a_tebibyte() {
    const TEBIBYTE: u64 = 1 << 40;
    let folder = Folder::new();
    for (bytes, labels) in
        [(&LABELS[..2_401], 1_024), (&[LABEL, [0xff; 24]].concat(), 1), (&[0xff; 24], 0)]
    {
        let file = File::create(folder.path("damaged")).unwrap();
        file.set_len(TEBIBYTE).unwrap();
        file.write_all_at(bytes, 0).unwrap();
        let dropped = TEBIBYTE - 24 * labels;
        let run = folder.shell("timeout 60 \"$@\"", &WORDS);
        run.is(0, &format!("kept {labels} dropped {dropped}\n"));
        assert_eq!(file.metadata().unwrap().len(), TEBIBYTE);
        folder.run(["list", "out"]).fails(0);
    }
}

/// Through a pipe all is counted, however long it is and in whatever pieces it comes, and little is held.
#[test]
fn a_pipe() {
    let folder = damaged(&LABELS[..1_000]);
    let words = ["salvage", "/dev/stdin", "out"];
    let whole = "it is a whole label file, and not damaged";
    folder.write("whole", LABELS);
    folder.shell("cat whole | \"$@\"", &words).is(0, "kept 960 dropped 24\n").tells(&[whole]);
    assert!(folder.read("out") == LABELS);
    let pieces = "{ head -c 30 damaged; sleep 0.1; tail -c +31 damaged; } | \"$@\"";
    folder.shell(pieces, &words).is(0, "kept 41 dropped 16\n");
    assert!(folder.read("out") == first(41));
    folder.shell(": | \"$@\"", &words).is(0, "kept 0 dropped 0\n");
    // 1 GB, with memory for a tenth of it.
    let mut broken = LABELS[..1_000].to_vec();
    broken[24 * 41 + 15] = 1;
    folder.write("broken", broken);
    let long = "{ cat broken; head -c 1000000000 /dev/zero; } | { ulimit -v 100000; \"$@\"; }";
    folder
        .shell(long, &words)
        .is(0, "kept 41 dropped 1000000016\n")
        .tells(&["/dev/stdin: label 41 (from 0, at byte 984): its byte 15 is 1"]);
    assert!(folder.read("out") == first(41));
    assert!(Command::new("mkfifo").arg(folder.path("pipe")).status().unwrap().success());
    let fifo = "cat damaged >pipe & timeout 60 \"$@\"; wait";
    folder.shell(fifo, &["salvage", "pipe", "out"]).is(0, "kept 41 dropped 16\n");
    assert!(folder.read("damaged") == LABELS[..1_000]);
}

/// DAMAGED by another path, by a hard link and through a symbolic link: told before anything is read, and left.
#[test]
fn labels_that_are_the_damaged_file() {
    let folder = damaged(&LABELS[..100]);
    fs::create_dir(folder.path("folder")).unwrap();
    fs::hard_link(folder.path("damaged"), folder.path("hard")).unwrap();
    symlink("damaged", folder.path("soft")).unwrap();
    symlink("../damaged", folder.path("folder/soft")).unwrap();
    let before = (stamps(&fs::metadata(folder.path("damaged")).unwrap()), folder.names());
    let absolute = folder.path("damaged").display().to_string();
    for (one, other) in [
        ("damaged", "damaged"),
        ("damaged", "./damaged"),
        ("damaged", "folder/../damaged"),
        ("damaged", &absolute),
        ("damaged", "hard"),
        ("hard", "damaged"),
        ("damaged", "soft"),
        ("soft", "damaged"),
        ("folder/soft", "hard"),
    ] {
        let run = folder.run(["salvage", one, other]);
        run.is(2, "").tells(&[
            &format!("yurdelmiz: {other}"),
            "is read, and cannot be written as well",
            "usage: yurdelmiz salvage DAMAGED LABELS",
        ]);
        assert!(folder.read("damaged") == LABELS[..100]);
        let after = (stamps(&fs::metadata(folder.path("damaged")).unwrap()), folder.names());
        assert_eq!(after, before);
    }
}

/// LABELS that cannot be put there, and DAMAGED that cannot be read: nothing is written.
#[test]
fn files_that_cannot_be_used() {
    let folder = damaged(&LABELS[..100]);
    fs::create_dir(folder.path("folder")).unwrap();
    folder.write("kept", "kept");
    symlink("kept", folder.path("link")).unwrap();
    symlink("nowhere", folder.path("dangling")).unwrap();
    let before = folder.names();
    for (words, told) in [
        (["damaged", "folder"], "folder: cannot be written: it is a folder"),
        (["damaged", "none/out"], "none/out: cannot be written: the folder none: No such file"),
        (["damaged", "damaged/out"], "damaged/out: cannot be written: Not a directory"),
        (["damaged", "link"], "link: cannot be written: it is a symbolic link"),
        (["damaged", "dangling"], "dangling: cannot be written: it is a symbolic link"),
        (["damaged", "/dev/null"], "/dev/null: cannot be written: it is a device"),
        (["none", "kept"], "none: cannot be read: No such file or directory"),
        (["folder", "kept"], "folder: cannot be read: it is a folder"),
        (["dangling", "kept"], "dangling: cannot be read: No such file or directory"),
        (["damaged/x", "kept"], "damaged/x: cannot be read: Not a directory"),
    ] {
        folder.run([&["salvage"][..], &words].concat()).is(3, "").tells(&[told]);
        assert_eq!(folder.names(), before);
        assert_eq!(folder.read("kept"), b"kept");
    }
}

/// Root may read and write everything; another user may not.
#[test]
fn permissions() {
    let folder = damaged(&LABELS[..48]);
    let root = fs::metadata(folder.path("damaged")).unwrap().uid() == 0;
    let permit = |name, mode| fs::set_permissions(folder.path(name), Permissions::from_mode(mode));
    // It is only read.
    permit("damaged", 0o400).unwrap();
    kept(&folder, "kept 2 dropped 0", "", &first(2));
    // A file that is replaced keeps its permissions.
    permit("out", 0o640).unwrap();
    kept(&folder, "kept 2 dropped 0", "", &first(2));
    assert_eq!(fs::metadata(folder.path("out")).unwrap().mode() & 0o7777, 0o640);
    fs::create_dir(folder.path("closed")).unwrap();
    permit("closed", 0o555).unwrap();
    let run = folder.run(["salvage", "damaged", "closed/out"]);
    if root {
        run.is(0, "kept 2 dropped 0\n");
    } else {
        run.is(3, "").tells(&["closed/out: cannot be written: Permission denied"]);
    }
    permit("closed", 0o755).unwrap();
    permit("damaged", 0o000).unwrap();
    if !root {
        salvage(&folder).is(3, "").tells(&["damaged: cannot be read: Permission denied"]);
    }
}

/// A disk that is full within LABELS: nothing is said of labels kept, and nothing is left.
#[test]
fn no_room() {
    let folder = damaged(&LABELS[..20_000]);
    let full = "ulimit -f 8; \"$@\"";
    let run = folder.shell(full, &WORDS).is(3, "").stderr.clone();
    assert_eq!(run, "yurdelmiz: out: cannot be written: File too large; nothing is left of it\n");
    assert_eq!(folder.names(), ["damaged"]);
    folder.write("out", "before");
    folder.shell(full, &WORDS).is(3, "").tells(&["File too large; it is as it was"]);
    assert_eq!(folder.read("out"), b"before");
    assert_eq!(folder.names(), ["damaged", "out"]);
    assert!(folder.read("damaged") == LABELS[..20_000]);
}

/// The labels are saved all the same, and it is said.
#[test]
fn standard_output() {
    let folder = damaged(&LABELS[..20_000]);
    let run = folder.shell("\"$@\" >/dev/full", &WORDS);
    run.is(3, "").tells(&[
        "damaged: it ends within label 833 ",
        "out is written, but standard output: No space left on device",
    ]);
    assert!(folder.read("out") == first(833));
    fs::remove_file(folder.path("out")).unwrap();
    let (reader, writer) = io::pipe().unwrap();
    drop(reader);
    let output = folder.command(WORDS).stdout(writer).output().unwrap();
    assert_eq!(output.status.code(), Some(3));
    assert!(folder.read("out") == first(833));
}

/// What a full disk cut is salvaged, and the records that were lost are added: the file of the whole day.
#[test]
fn then_added_to() {
    let folder = damaged(&LABELS[..24 * 700 + 5]);
    folder.write("elements", elements());
    salvage(&folder).is(0, "kept 700 dropped 5\n");
    let listed = folder.run(["list", "out"]);
    assert!(listed.stdout.starts_with("labels 700 "), "{}", listed.stdout);
    folder.write("rest", &TELEMETRY[16 * 700..]);
    folder.run(["add", "elements", "rest", "out"]).is(0, &format!("added 260 {LABELLED}"));
    assert!(folder.read("out") == LABELS);
}

/// Salvaged again it is the same file.
#[test]
fn salvaged_again() {
    let folder = damaged([&LABEL[..], &label_with(13, &[0]), &[9]].concat());
    salvage(&folder).is(0, "kept 2 dropped 1\n");
    let run = folder.run(["salvage", "out", "again"]);
    run.is(0, "kept 2 dropped 24\n").tells(&["out: it is a whole label file, and not damaged"]);
    assert_eq!(folder.read("again"), folder.read("out"));
}
