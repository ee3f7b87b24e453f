//! A written file appears whole or not at all, and nothing else is touched.

mod common;

use std::fs::{self, Permissions};
use std::os::unix::fs::{symlink, MetadataExt, PermissionsExt};
use std::process::Command;

use common::{changed, Folder, LABELLED, LABELS};

const INPUTS: [&str; 2] = ["elements", "telemetry"];

fn mode(folder: &Folder, name: &str) -> u32 {
    fs::metadata(folder.path(name)).unwrap().mode() & 0o7777
}

#[test]
fn an_existing_file_keeps_its_permissions() {
    for permissions in [0o600, 0o640, 0o664, 0o444] {
        let folder = Folder::with_example();
        folder.write("out", "before");
        fs::set_permissions(folder.path("out"), Permissions::from_mode(permissions)).unwrap();
        folder.label().is(0, LABELLED);
        assert_eq!(folder.read("out"), LABELS);
        assert_eq!(mode(&folder, "out"), permissions);
    }
}

#[test]
fn a_new_file_has_the_permissions_of_the_mask() {
    let folder = Folder::with_example();
    let words = ["label", "elements", "telemetry", "out"];
    folder.shell("umask 027; \"$@\"", &words).is(0, LABELLED);
    assert_eq!(mode(&folder, "out"), 0o640);
}

/// Told, and left alone: the file, and what it points to.
#[test]
fn what_is_no_regular_file() {
    let folder = Folder::with_example();
    fs::create_dir(folder.path("folder")).unwrap();
    folder.write("pointed", "kept");
    symlink("pointed", folder.path("link")).unwrap();
    symlink("nowhere", folder.path("dangling")).unwrap();
    symlink("folder", folder.path("folder_link")).unwrap();
    assert!(Command::new("mkfifo").arg(folder.path("pipe")).status().unwrap().success());
    let before = folder.names();
    for (out, told) in [
        ("folder", "folder: cannot be written: it is a folder"),
        ("link", "link: cannot be written: it is a symbolic link: name the file itself, pointed"),
        ("dangling", "dangling: cannot be written: it is a symbolic link"),
        ("folder_link", "folder_link: cannot be written: it is a symbolic link"),
        ("pipe", "pipe: cannot be written: it is a pipe"),
        ("/dev/null", "/dev/null: cannot be written: it is a device"),
        ("new/", "new/: cannot be written: that is the name of a folder"),
        (".", ".: cannot be written: it is a folder"),
        ("none/out", "none/out: cannot be written: the folder none: No such file or directory"),
        ("elements/out", "elements/out: cannot be written: Not a directory"),
    ] {
        let run = folder.run(["label", "elements", "telemetry", out]);
        run.is(3, "").tells(&[told]);
        assert_eq!(folder.names(), before);
    }
    assert_eq!(folder.read("pointed"), b"kept");
    assert!(fs::symlink_metadata(folder.path("dangling")).unwrap().is_symlink());
}

/// By its own name, by another path, by a hard link and through a symbolic link.
#[test]
fn an_output_that_is_an_input() {
    let folder = Folder::with_example();
    fs::hard_link(folder.path("telemetry"), folder.path("hard")).unwrap();
    symlink("elements", folder.path("soft")).unwrap();
    for out in ["elements", "telemetry", "./telemetry", "../", "hard", "soft"] {
        let out = match out {
            "../" => folder.path("telemetry").display().to_string(),
            other => other.to_owned(),
        };
        let before = (folder.read("elements"), folder.read("telemetry"));
        let run = folder.run(["label", "elements", "telemetry", &out]);
        run.is(2, "").tells(&[&out, "is read, and cannot be written as well", "usage:"]);
        assert_eq!((folder.read("elements"), folder.read("telemetry")), before);
    }
    fs::hard_link(folder.path("telemetry"), folder.path("hard.svg")).unwrap();
    folder.run(["plot", "telemetry", "hard.svg"]).is(2, "").tells(&["is read"]);
}

#[test]
fn leftovers_are_not_in_the_way() {
    let folder = Folder::with_example();
    let left = [".out.yurdelmiz-1-0.tmp", "out.part", ".out.tmp"];
    for name in left {
        folder.write(name, "left");
    }
    folder.label().is(0, LABELLED);
    assert_eq!(folder.read("out"), LABELS);
    assert!(left.iter().all(|name| folder.read(name) == b"left"));
    assert_eq!(folder.names().len(), 6);
}

/// The longest name that a file can have.
#[test]
fn a_long_name() {
    let folder = Folder::with_example();
    let name = "x".repeat(255);
    folder.run(["label", "elements", "telemetry", &name]).is(0, LABELLED);
    assert_eq!(folder.read(&name), LABELS);
    assert_eq!(folder.names().len(), 3);
}

/// A disk that is full within the file: with no output and over one.
#[test]
fn no_room_for_the_file() {
    let folder = Folder::with_example();
    let words = ["label", "elements", "telemetry", "out"];
    // 4,096 bytes; the labels have 23,064.
    let run = folder.shell("ulimit -f 8; \"$@\"", &words);
    run.is(3, "").tells(&["out: cannot be written: File too large", "nothing is left of it"]);
    assert_eq!(folder.names(), INPUTS);
    folder.write("out", "kept");
    let run = folder.shell("ulimit -f 8; \"$@\"", &words);
    run.is(3, "").tells(&["out: cannot be written: File too large", "it is as it was"]);
    assert_eq!(folder.read("out"), b"kept");
    assert_eq!(folder.names(), ["elements", "out", "telemetry"]);
}

/// The file is there, and the verdict could not be said.
#[test]
fn no_room_for_the_verdict() {
    let folder = Folder::with_example();
    let words = ["label", "elements", "telemetry", "out"];
    let run = folder.shell("\"$@\" >/dev/full", &words);
    run.is(3, "").tells(&["out is written, but standard output: No space left on device"]);
    assert_eq!(folder.read("out"), LABELS);
    folder.write("elements", changed("6100000", "0.61"));
    let run = folder.shell("\"$@\" >/dev/full", &words);
    run.is(3, "").tells(&["standard output: No space left on device"]);
}

#[test]
fn inputs_that_cannot_be_read() {
    let folder = Folder::with_example();
    fs::create_dir(folder.path("folder")).unwrap();
    for (elements, telemetry, told) in [
        ("none", "telemetry", "none: cannot be read: No such file or directory"),
        ("elements", "none", "none: cannot be read: No such file or directory"),
        ("folder", "telemetry", "folder: cannot be read: it is a folder"),
        ("elements", "folder", "folder: cannot be read: it is a folder"),
        ("elements/x", "telemetry", "elements/x: cannot be read: Not a directory"),
    ] {
        folder.run(["label", elements, telemetry, "out"]).is(3, "").tells(&[told]);
        assert!(!folder.has("out"));
    }
    folder.run(["list", "none"]).is(3, "").tells(&["none: cannot be read: No such file"]);
    folder.run(["plot", "none", "x.svg"]).is(3, "").tells(&["none: cannot be read"]);
}

/// Root may read and write everything; another user may not.
#[test]
fn permissions_denied() {
    let folder = Folder::with_example();
    fs::create_dir(folder.path("closed")).unwrap();
    fs::set_permissions(folder.path("closed"), Permissions::from_mode(0o555)).unwrap();
    let root = fs::metadata(folder.path("closed")).unwrap().uid() == 0;
    let run = folder.run(["label", "elements", "telemetry", "closed/out"]);
    if root {
        run.is(0, LABELLED);
    } else {
        run.is(3, "").tells(&["closed/out: cannot be written: Permission denied"]);
    }
    fs::set_permissions(folder.path("closed"), Permissions::from_mode(0o755)).unwrap();
    fs::set_permissions(folder.path("telemetry"), Permissions::from_mode(0o000)).unwrap();
    if !root {
        folder.label().is(3, "").tells(&["telemetry: cannot be read: Permission denied"]);
    }
}
