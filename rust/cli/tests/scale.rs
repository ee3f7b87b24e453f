//! `scale`: the figures of files one after another, and each file that adds nothing named.

mod common;

use std::ffi::OsStr;
use std::fs;
use std::io;
use std::os::unix::ffi::OsStrExt;
use std::os::unix::fs::symlink;
use std::process::Command;

use common::{label_file, label_file_in, label_with, labels_with_16_bytes, Folder, LABEL, LABELS};
use yurdelmiz::{Figures, Form, LabelFile, Side};

const NO_FILE: &str = "cannot be read: No such file or directory";

/// The figures of the example.
const EXAMPLE: &str = "files 1
training 227
dark 37
valid 224
least c10e1b3d -8.88165
greatest 40cc3fa7 6.38277
sines -31485394225
squares 4066379223
mean-sine -0.129176469 rounded
deviation-sine 0.00 rounded
range-watts 15.26442003250122 rounded
";

/// The figures of so many files without a training label.
fn nothing(files: u32) -> String {
    format!(
        "files {files}\ntraining 0\ndark 0\nvalid 0\nleast none\ngreatest none\nsines 0\nsquares 0\n\
         mean-sine none\ndeviation-sine none\nrange-watts none\n"
    )
}

/// A lit training label with this sine, whose reading is missing.
fn with_sine(sine: i32) -> [u8; 24] {
    let mut label = label_with(13, &[0, 0]);
    label[16..20].copy_from_slice(&sine.to_le_bytes());
    label[20..24].fill(0);
    label
}

/// A lit training label with these watts and the sine 0.
fn with_watts(watts: f32) -> [u8; 24] {
    let mut label = with_sine(0);
    label[14] = 1;
    label[20..24].copy_from_slice(&watts.to_le_bytes());
    label
}

/// The value of a line.
#[track_caller]
fn value<'a>(stdout: &'a str, name: &str) -> &'a str {
    let mut values = stdout.lines().filter_map(|line| line.strip_prefix(name)?.strip_prefix(' '));
    let value = values.next().unwrap_or_else(|| panic!("no {name} in {stdout}"));
    assert_eq!(values.next(), None, "{name} twice");
    value
}

/// `day`, the example; `bad`, without a trailer; and `broken`, whose second label breaks a rule.
fn folder() -> Folder {
    let folder = Folder::new();
    folder.write("day", LABELS);
    folder.write("bad", &LABELS[..100]);
    let mut broken = label_file(&[LABEL; 3]);
    broken[24 + 12] = 2;
    folder.write("broken", broken);
    folder
}

#[test]
fn the_example() {
    let folder = folder();
    assert_eq!(folder.run(["scale", "day"]).is(0, EXAMPLE).stderr, "");
    // Those of its labels as `list` prints them.
    let listed = folder.run(["list", "day"]).stdout;
    let rows = listed.lines().skip(1).map(|line| line.split(' ').collect::<Vec<_>>());
    let training: Vec<Vec<&str>> = rows.filter(|row| row[2] == "1").collect();
    let count =
        |column: usize| training.iter().filter(|row| row[column] == "1").count().to_string();
    assert_eq!(value(EXAMPLE, "training"), training.len().to_string());
    assert_eq!([value(EXAMPLE, "dark"), value(EXAMPLE, "valid")], [count(3), count(4)]);
    let sines: Vec<i64> = training.iter().map(|row| row[5].parse().unwrap()).collect();
    assert_eq!(value(EXAMPLE, "sines"), sines.iter().sum::<i64>().to_string());
    let squares = sines.iter().map(|sine| (sine / 32_768).pow(2)).sum::<i64>();
    assert_eq!(value(EXAMPLE, "squares"), squares.to_string());
}

/// Either trailer, any bytes ahead, a link, and a pipe.
#[test]
fn the_same_file() {
    let folder = folder();
    symlink("day", folder.path("link")).unwrap();
    folder.run(["scale", "link"]).is(0, EXAMPLE);
    for file in [LABELS.to_vec(), labels_with_16_bytes()] {
        for ahead in [0, 1, 7, 70_000] {
            folder.write("other", [vec![7; ahead], file.clone()].concat());
            folder.run(["scale", "other"]).is(0, EXAMPLE);
            folder.shell("cat other | \"$@\"", &["scale", "/dev/stdin"]).is(0, EXAMPLE);
        }
    }
    assert!(Command::new("mkfifo").arg(folder.path("pipe")).status().unwrap().success());
    folder.shell("cat day >pipe & \"$@\"", &["scale", "pipe"]).is(0, EXAMPLE);
}

/// Over many files, by the labels of all of them.
#[test]
fn files_one_after_another() {
    let folder = folder();
    folder.write("one", label_file(&[LABEL]));
    folder.write("other", label_file_in(Form::Bytes16, &[with_sine(-65_536), with_watts(0.25)]));
    folder.write("none", label_file(&[]));
    let lines = "files 5
training 231
dark 39
valid 227
least c10e1b3d -8.88165
greatest 41200000 10
sines -31485459763
squares 4066379227
mean-sine -0.126939911 rounded
deviation-sine 0.02 rounded
range-watts 18.8816499710083 rounded
";
    for words in [
        ["scale", "day", "one", "other", "none", "one"],
        ["scale", "one", "one", "none", "other", "day"],
        ["scale", "none", "./one", "other", "day", "one"],
    ] {
        assert_eq!(folder.run(words).is(0, lines).stderr, "");
    }
}

/// None of the figures that are not there.
#[test]
fn nothing_to_compute_from() {
    let folder = Folder::new();
    folder.write("none", label_file(&[]));
    let test = label_with(8, &[0x41, 0, 0, 0, 2]);
    let withheld = label_with(8, &[0x10, 0, 0, 0, 0]);
    folder.write("others", label_file(&[test, withheld, test]));
    assert_eq!(folder.run(["scale", "none"]).is(0, &nothing(1)).stderr, "");
    folder.run(["scale", "none", "others", "none"]).is(0, &nothing(3));
    // Labels, and no valid reading.
    let saturated = label_with(14, &[2, 0, 0, 0, 0, 0, 0, 0, 0, 0]);
    folder.write("saturated", label_file(&[saturated, with_sine(1 << 30)]));
    let run = folder.run(["scale", "saturated"]);
    run.fails(0);
    for (name, found) in [
        ("training", "2"),
        ("valid", "0"),
        ("least", "none"),
        ("greatest", "none"),
        ("mean-sine", "0.500000000 rounded"),
        ("deviation-sine", "0.5000 rounded"),
        ("range-watts", "none"),
    ] {
        assert_eq!(value(&run.stdout, name), found);
    }
}

/// Bits, and the shortest decimal that reads back as them; of equal watts the earlier file's stand.
#[test]
fn extremes() {
    let folder = Folder::new();
    for (name, watts) in [("plus", 0.0), ("minus", -0.0), ("tiny", f32::from_bits(1))] {
        folder.write(name, label_file(&[with_watts(watts)]));
    }
    folder.write("ends", label_file(&[with_watts(f32::MAX), with_watts(f32::MIN)]));
    for (names, least, greatest, range) in [
        (&["plus", "minus"][..], "00000000 0", "00000000 0", "0"),
        (&["minus", "plus"], "80000000 -0.0", "80000000 -0.0", "0"),
        (&["minus", "tiny", "plus"], "80000000 -0.0", "00000001 1e-45", "1.401298464324817e-45"),
        (
            &["plus", "ends"],
            "ff7fffff -3.4028235e38",
            "7f7fffff 3.4028235e38",
            "6.805646932770577e38",
        ),
    ] {
        let run = folder.run(["scale"].iter().chain(names));
        run.fails(0);
        assert_eq!(
            [value(&run.stdout, "least"), value(&run.stdout, "greatest")],
            [least, greatest]
        );
        assert_eq!(value(&run.stdout, "range-watts"), format!("{range} rounded"));
    }
}

/// Each is named with its number, its place and why, and adds nothing; the others are taken.
#[test]
fn refused_files() {
    let folder = folder();
    folder.write("empty", "");
    folder.write("text", "no label file, but enough of a text\n");
    let mut counts = label_file(&[LABEL; 2]);
    counts[48 + 4] = 1;
    folder.write("counts", counts);
    let run = folder.run(["scale", "bad", "empty", "day", "broken", "counts", "text"]);
    let lines: Vec<&str> = run.is(1, EXAMPLE).stderr.lines().collect();
    assert_eq!(lines.len(), 6, "{}", run.stderr);
    for (line, told) in lines.iter().zip([
        "bad: refused 12 at 0: its last 4 bytes say a distance of ",
        "empty: refused 12 at 0: the file is empty",
        "broken: refused 13 at 1: label 1 (from 0, 72 bytes before the end): its side is 2 (test), and revolution 17 is 1 (training)",
        "counts: refused 13 at 2: the trailer says 1 training and 0 test labels, and there are 2 and 0",
        "text: refused 12 at 0: ",
        "refused 5 of 6 files",
    ]) {
        assert!(line.starts_with(&format!("yurdelmiz: {told}")), "{line}");
    }
    // As `list` has them.
    for (name, line) in [("bad", lines[0]), ("broken", lines[2]), ("counts", lines[3])] {
        let listed = folder.run(["list", name]);
        let why = listed.stderr.strip_prefix(&format!("yurdelmiz: {name}: ")).unwrap();
        assert!(line.ends_with(why.trim_end()), "{line}");
        let refused = listed.stdout.trim_end();
        assert!(line.starts_with(&format!("yurdelmiz: {name}: {refused}: ")), "{line}");
    }
    let run = folder.run(["scale", "bad"]);
    assert!(run.is(1, &nothing(0)).stderr.ends_with("\nyurdelmiz: refused 1 of 1 files\n"));
}

#[test]
fn what_cannot_be_read() {
    let folder = folder();
    fs::create_dir(folder.path("folder")).unwrap();
    symlink("nowhere", folder.path("dangling")).unwrap();
    let run = folder.run(["scale", "none", "folder", "day", "dangling", "day/x"]);
    let told = format!(
        "yurdelmiz: none: {NO_FILE}\nyurdelmiz: folder: cannot be read: it is a folder: name a file\n\
         yurdelmiz: dangling: {NO_FILE}\nyurdelmiz: day/x: cannot be read: Not a directory\n\
         yurdelmiz: could not read 4 of 5 files\n"
    );
    assert_eq!(run.is(3, EXAMPLE).stderr, told);
    let run = folder.run(["scale", "bad", "day", "none"]);
    let last = run.is(3, EXAMPLE).stderr.lines().last();
    assert_eq!(last, Some("yurdelmiz: could not read 1 of 3 files, refused 1 of 3 files"));
    // What has no length is read as `list` reads it.
    let run = folder.run(["scale", "/dev/null"]);
    assert!(run.is(1, &nothing(0)).stderr.starts_with("yurdelmiz: /dev/null: refused 12 at 0: "));
}

/// The 1,000th file is taken, and the next refused, after what is wrong with itself; refused files are none of them.
#[test]
fn a_thousand_files() {
    let folder = folder();
    let longest = label_file(&[LABEL; 1_024]);
    folder.write("longest", &longest);
    let mut words = vec!["scale", "bad", "broken"];
    words.extend(["longest"; 999]);
    let run = folder.run(words.iter().chain(&["none", "longest"]));
    run.fails(3);
    assert_eq!(value(&run.stdout, "files"), "1000");
    assert_eq!(value(&run.stdout, "training"), "1024000");
    assert_eq!(value(&run.stdout, "sines"), "-1024000");
    let run = folder.run(words.iter().chain(&["longest", "longest", "broken", "day"]));
    run.fails(1);
    assert_eq!(value(&run.stdout, "files"), "1000");
    let lines: Vec<&str> = run.stderr.lines().skip(2).collect();
    let full = "refused 15 at 0: the figures have 1,000 files already, the most";
    assert_eq!(lines.len(), 4, "{lines:?}");
    assert_eq!(lines[0], format!("yurdelmiz: longest: {full}"));
    assert!(lines[1].starts_with("yurdelmiz: broken: refused 13 at 1: "), "{}", lines[1]);
    assert_eq!(lines[2], format!("yurdelmiz: day: {full}"));
    assert_eq!(lines[3], "yurdelmiz: refused 5 of 1,005 files");
}

/// A name is on one line, and two names stay two.
#[test]
fn names() {
    let folder = Folder::new();
    let names: [(&[u8], &str); 5] = [
        (b"two words", "two words"),
        (b"a\nb", r"a\nb"),
        (br"a\nb", r"a\\nb"),
        (b"\x1b[2J", r"\u{1b}[2J"),
        (b"\xff", r"\xff"),
    ];
    for (name, shown) in names {
        let run = folder.run([OsStr::new("scale"), OsStr::from_bytes(name)]);
        let told =
            format!("yurdelmiz: {shown}: {NO_FILE}\nyurdelmiz: could not read 1 of 1 files\n");
        assert_eq!(run.is(3, &nothing(0)).stderr, told);
    }
    folder.write("--help", LABELS);
    folder.run(["scale", "--", "--help"]).is(0, EXAMPLE);
}

/// Nothing is written beside standard output and standard error.
#[test]
fn files_stay() {
    let folder = folder();
    folder.run(["scale", "day", "bad", "broken"]).fails(1);
    assert_eq!(folder.names(), ["bad", "broken", "day"]);
    assert!(folder.read("day") == LABELS);
}

/// A full disk is no success, and a reader that went away is no panic; neither has a verdict.
#[test]
fn standard_output() {
    let folder = folder();
    let words = ["scale", "day", "bad"];
    let run = folder.shell("\"$@\" >/dev/full", &words);
    let last = run.is(3, "").stderr.lines().last();
    assert_eq!(last, Some("yurdelmiz: standard output: No space left on device"));
    let (reader, writer) = io::pipe().unwrap();
    drop(reader);
    let output = folder.command(["scale", "day"]).stdout(writer).output().unwrap();
    assert_eq!((output.status.code(), output.stderr), (Some(3), vec![]));
}

/// The figures are those of the crate, whose figures of the training labels are counted here.
#[test]
fn figures_of_the_crate() {
    let mut figures = Figures::default();
    figures.add(LABELS).unwrap();
    let labels = LabelFile::read(LABELS).unwrap().labels();
    let training = labels.filter(|label| label.side == Side::Training).count();
    assert_eq!(figures.labels as usize, training);
    for (name, figure) in [
        ("files", i128::from(figures.files)),
        ("training", i128::from(figures.labels)),
        ("dark", i128::from(figures.dark)),
        ("valid", i128::from(figures.valid)),
        ("sines", i128::from(figures.sines)),
        ("squares", i128::from(figures.squares)),
    ] {
        assert_eq!(value(EXAMPLE, name), figure.to_string());
    }
}
