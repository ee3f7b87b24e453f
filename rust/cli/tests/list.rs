//! `list`: the lines, CSV, JSON, and why a file is refused.

mod common;

use std::io;

use common::{label_file, label_file_in, label_with, labels_with_16_bytes, Folder, LABEL, LABELS};
use yurdelmiz::Form;

#[test]
fn document_01() {
    let folder = Folder::new();
    for form in Form::ALL {
        folder.write("day", label_file_in(form, &[LABEL]));
        folder
            .run(["list", "day"])
            .is(0, "labels 1 training 1 test 0\n86400 17 1 1 1 -1 41200000\n");
    }
}

/// Both trailers give the same lines, CSV, JSON and picture.
#[test]
fn both_trailers() {
    let folder = Folder::new();
    folder.write("day", LABELS);
    let options = [&["list", "day"][..], &["list", "--csv", "day"], &["list", "--json", "day"]];
    let printed = options.map(|words| folder.run(words).stdout);
    folder.run(["plot", "day", "day.svg"]).is(0, "drawn 960\n");
    let picture = folder.read("day.svg");
    folder.write("day", labels_with_16_bytes());
    for (words, printed) in options.iter().zip(&printed) {
        folder.run(*words).is(0, printed);
    }
    folder.run(["plot", "day", "day.svg"]).is(0, "drawn 960\n");
    assert_eq!(folder.read("day.svg"), picture);
    assert!(printed[0].starts_with("labels 960 training 227 test 267\n"));
    let counts = "{\"counts\": {\"labels\": 960, \"training\": 227, \"test\": 267, \"dark\": 75, \"dark_test\": 7}, ";
    assert!(printed[2].starts_with(counts), "{}", &printed[2][..100]);
}

/// A code in the lines, a word in CSV and JSON.
#[test]
fn shades() {
    let folder = Folder::new();
    let words = ["lit", "dark", "part"];
    let labels = [0, 1, 2].map(|shade| label_with(13, &[shade]));
    folder.write("day", label_file(&labels));
    let mut lines = "labels 3 training 3 test 0\n".to_owned();
    for code in 0..3 {
        lines.push_str(&format!("86400 17 1 {code} 1 -1 41200000\n"));
    }
    folder.run(["list", "day"]).is(0, &lines);
    let csv = folder.run(["list", "--csv", "day"]).stdout;
    let found: Vec<&str> = csv.lines().skip(1).map(|row| row.split(',').nth(3).unwrap()).collect();
    assert_eq!(found, words);
    let json = folder.run(["list", "--json", "day"]).stdout;
    let objects: Vec<&str> = json.lines().filter(|line| line.contains("\"shade\"")).collect();
    assert_eq!(objects.len(), 3);
    for (object, word) in objects.iter().zip(words) {
        assert!(object.contains(&format!("\"shade\": \"{word}\", ")), "{object}");
    }
}

/// Any bytes of others may stand ahead of the first label; a pipe is read as a file is.
#[test]
fn bytes_ahead() {
    let folder = Folder::new();
    let lines = "labels 1 training 1 test 0\n86400 17 1 1 1 -1 41200000\n";
    for form in Form::ALL {
        let file = label_file_in(form, &[LABEL]);
        for ahead in [1, 8, 24_551, 24_552, 24_553, 24_560, 65_536, 200_000] {
            folder.write("day", [&vec![0; ahead], &file[..]].concat());
            folder.run(["list", "day"]).is(0, lines);
            folder.shell("cat day | \"$@\"", &["list", "/dev/stdin"]).is(0, lines);
        }
        let longest = label_file_in(form, &[LABEL; 1_024]);
        for ahead in [0, 1, 7, 8, 9, 24_592, 24_600, 100_000] {
            folder.write("day", [&vec![0; ahead], &longest[..]].concat());
            let run = folder.run(["list", "day"]);
            assert_eq!((run.status, run.stdout.lines().count()), (Some(0), 1_025));
        }
    }
}

#[test]
fn csv() {
    let folder = Folder::new();
    folder.write(
        "day",
        label_file(&[
            LABEL,
            label_with(14, &[0, 0, 0, 0, 0, 0x40, 0, 0, 0, 0]),
            label_with(8, &[0xf0, 0xff, 0xff, 0xff, 0, 0, 2, 0, 0, 0, 0, 0xc0, 0, 0, 0, 0]),
            label_with(16, &[0, 0, 0, 0x20, 0xca, 0xf2, 0x49, 0x71]),
            label_with(20, &[0, 0, 0, 0x80]),
        ]),
    );
    folder.run(["list", "--csv", "day"]).is(
        0,
        "time,revolution,side,shade,reading,elevation_degrees,elevation_sine,watts\n\
         1990-01-01T00:00:00Z,17,training,dark,valid,0.0000,-0.0000000009313225746154785,10\n\
         1990-01-01T00:00:00Z,17,training,dark,missing,90.0000,1,\n\
         1990-01-01T00:00:00Z,-16,withheld,lit,saturated,-90.0000,-1,\n\
         1990-01-01T00:00:00Z,17,training,dark,valid,30.0000,0.5,1e30\n\
         1990-01-01T00:00:00Z,17,training,dark,valid,0.0000,-0.0000000009313225746154785,-0.0\n",
    );
    folder.write("none", label_file(&[]));
    let run = folder.run(["list", "none", "--csv"]);
    run.is(0, "time,revolution,side,shade,reading,elevation_degrees,elevation_sine,watts\n");
}

#[test]
fn json() {
    let folder = Folder::new();
    let other = label_with(8, &[0x41, 0, 0, 0, 2, 0, 2, 0, 0, 0, 0, 0xe0, 0, 0, 0, 0]);
    folder.write("day", label_file(&[LABEL, other]));
    folder.run(["list", "--json", "day"]).is(
        0,
        "{\"counts\": {\"labels\": 2, \"training\": 1, \"test\": 1, \"dark\": 1, \"dark_test\": 0}, \"labels\": [\n\
         {\"time\": \"1990-01-01T00:00:00Z\", \"revolution\": 17, \"side\": \"training\", \"shade\": \"dark\", \
         \"reading\": \"valid\", \"elevation_degrees\": 0.0000, \"elevation_sine\": -0.0000000009313225746154785, \
         \"watts\": 10},\n\
         {\"time\": \"1990-01-01T00:00:00Z\", \"revolution\": 65, \"side\": \"test\", \"shade\": \"lit\", \
         \"reading\": \"saturated\", \"elevation_degrees\": -30.0000, \"elevation_sine\": -0.5, \"watts\": null}\n]}\n",
    );
    folder.write("none", label_file(&[]));
    let none = "{\"counts\": {\"labels\": 0, \"training\": 0, \"test\": 0, \"dark\": 0, \"dark_test\": 0}, \
                \"labels\": []}\n";
    folder.run(["list", "--json", "none"]).is(0, none);
}

/// Sines and watts of the example read back as the same bits, from CSV and from JSON.
#[test]
fn decimals_read_back() {
    let folder = Folder::new();
    folder.write("day", LABELS);
    let csv = folder.run(["list", "--csv", "day"]).stdout;
    let json = folder.run(["list", "--json", "day"]).stdout;
    let rows = csv.lines().skip(1).zip(json.lines().skip(1));
    let labels = LABELS[..LABELS.len() - Form::Bytes24.size()].chunks_exact(24);
    let mut compared = 0;
    for ((row, object), label) in rows.zip(labels) {
        let fields: Vec<&str> = row.split(',').collect();
        let sine = i32::from_le_bytes(label[16..20].try_into().unwrap());
        assert_eq!(fields[6].parse::<f64>().unwrap() * f64::from(1 << 30), f64::from(sine));
        let watts = u32::from_le_bytes(label[20..].try_into().unwrap());
        match label[14] {
            1 => assert_eq!(fields[7].parse::<f32>().unwrap().to_bits(), watts),
            _ => assert_eq!(fields[7], ""),
        }
        let shown = if label[14] == 1 { fields[7] } else { "null" };
        assert!(
            object.contains(&format!("\"elevation_sine\": {}, \"watts\": {shown}}}", fields[6]))
        );
        assert!(object.contains(&format!("\"time\": \"{}\"", fields[0])));
        compared += 1;
    }
    assert_eq!(compared, 960);
}

/// The refusal on standard output, and beneath it why.
#[track_caller]
fn refused(file: &[u8], place: &str, told: &[&str]) {
    let folder = Folder::new();
    folder.write("day", file);
    let line = format!("refused {place}\n");
    folder.run(["list", "day"]).is(1, &line).tells(told).tells(&["yurdelmiz: day: "]);
    folder.run(["list", "--csv", "day"]).is(1, &line).tells(told);
    let (number, at) = place.split_once(" at ").unwrap();
    let json = format!("{{\"refused\": {number}, \"at\": {at}}}\n");
    folder.run(["list", "--json", "day"]).is(1, &json).tells(told);
    // What list refuses plot refuses, and draws nothing.
    folder.run(["plot", "day", "day.svg"]).is(1, &line).tells(told);
    assert_eq!(folder.names(), ["day"]);
}

/// What stands in a trailer's place.
fn words<const N: usize>(numbers: [u32; N]) -> Vec<u8> {
    numbers.map(u32::to_le_bytes).concat()
}

#[test]
fn trailers() {
    let file = |trailer: Vec<u8>| [&LABEL[..], &trailer].concat();
    let cut = |trailer: Vec<u8>| file(trailer)[1..].to_vec();
    for (bytes, told) in [
        (vec![], "the file is empty: a label file has a trailer of 16 bytes at the least"),
        (vec![0; 15], "the file has 15 bytes, and a trailer alone has 16 or 24"),
        (words([1_025, 0, 0, 24_616]), "its last 16 bytes, says 1,025 labels, and 1,024 are the most"),
        (
            words([1_025, 0, 0, 0, 0, 24_624]),
            "its last 24 bytes, says 1,025 labels, and 1,024 are the most",
        ),
        (words([u32::MAX, 0, 0, 16]), "says 4,294,967,295 labels"),
        (words([u32::MAX, 0, 0, 0, 0, 0]), "says 4,294,967,295 labels"),
        (
            file(words([1, 1, 0, 64])),
            "its last 16 bytes, says 1 labels, which begin 40 bytes before the end, and a distance of 64 bytes",
        ),
        (
            file(words([1, 1, 0, 1, 0, 24])),
            "its last 24 bytes, says 1 labels, which begin 48 bytes before the end, and a distance of 24 bytes",
        ),
        (
            cut(words([1, 1, 0, 40])),
            "says 1 labels, which make 40 bytes with it, and the file has 39: its start is missing",
        ),
        (
            cut(words([1, 1, 0, 1, 0, 48])),
            "says 1 labels, which make 48 bytes with it, and the file has 47: its start is missing",
        ),
        (
            file(words([1, 1, 1, 40])),
            "says 1 training and 1 test labels, more together than its 1 labels",
        ),
        (
            file(words([1, 1, 1, 0, 0, 48])),
            "says 1 training and 1 test labels, more together than its 1 labels",
        ),
        (file(words([1, 2, u32::MAX, 40])), "says 2 training and 4,294,967,295 test labels"),
        (file(words([1, 1, 0, 2, 0, 48])), "says 2 dark labels, more than its 1 labels"),
        (file(words([1, 1, 0, 1, 1, 48])), "says 1 dark test labels, more than its 0 test labels"),
        (file(words([1, 0, 1, 0, 1, 48])), "says 1 dark test labels, more than its 0 dark labels"),
        (
            file(words([1, 1, 0, 41])),
            "its last 4 bytes say a distance of 41 bytes, and the file, of 40, has no trailer with it: a \
             distance is 24 bytes a label and 16 or 24; it is no label file, or not whole",
        ),
        (words([0, 0, 0, 24]), "a distance of 24 bytes, and the file, of 16, has no trailer with it"),
        (common::EXAMPLE.as_bytes().to_vec(), "it is text, and no label file"),
    ] {
        refused(&bytes, "12 at 0", &[told]);
    }
}

#[test]
fn field_rules() {
    for (label, told) in [
        (
            label_with(0, &3_476_476_800i64.to_le_bytes()),
            "its time, 2100-03-01 00:00:00, is outside 1900 March 1 to 2100 February 28",
        ),
        (
            label_with(0, &(-2_834_956_801i64).to_le_bytes()),
            "its time, 1900-02-28 23:59:59, is outside",
        ),
        (label_with(12, &[2]), "its side is 2 (test), and revolution 17 is 1 (training)"),
        (label_with(8, &[16]), "its side is 1 (training), and revolution 16 is 0 (withheld)"),
        (label_with(8, &[65]), "its side is 1 (training), and revolution 65 is 2 (test)"),
        (label_with(12, &[7]), "its side is 7, which is none, and revolution 17 is 1 (training)"),
        (label_with(13, &[3]), "its shade is 3, and 0 to 2 are known"),
        (label_with(13, &[255]), "its shade is 255, and 0 to 2 are known"),
        (label_with(14, &[3]), "its reading is 3, and 0 to 2 are known"),
        (label_with(15, &[9]), "its byte 15 is 9, and is always 0"),
        (
            label_with(16, &1_073_741_825i32.to_le_bytes()),
            "its elevation sine is 1,073,741,825, beyond one",
        ),
        (
            label_with(16, &i32::MIN.to_le_bytes()),
            "its elevation sine is -2,147,483,648, beyond one",
        ),
        (
            label_with(20, &[0, 0, 0x80, 0x7f]),
            "the bits of its watts are 7f800000, which are not finite",
        ),
        (
            label_with(20, &[1, 0, 0x80, 0x7f]),
            "the bits of its watts are 7f800001, which are not finite",
        ),
        (
            label_with(14, &[0]),
            "the bits of its watts are 41200000, and a reading without watts has 0",
        ),
        (
            label_with(14, &[2]),
            "the bits of its watts are 41200000, and a reading without watts has 0",
        ),
    ] {
        for (form, back) in [(Form::Bytes16, 64), (Form::Bytes24, 72)] {
            let told = format!("label 1 (from 0, {back} bytes before the end): {told}");
            refused(&label_file_in(form, &[LABEL, label, LABEL]), "13 at 1", &[&told]);
        }
    }
}

/// Each count one off, within the bounds of 12.
#[test]
fn counts() {
    // Training and dark, test and dark, test and lit.
    let labels =
        [LABEL, label_with(8, &[0x41, 0, 0, 0, 2]), label_with(8, &[0x41, 0, 0, 0, 2, 0])].concat();
    for (training, test, dark, dark_test, told) in [
        (0, 2, 2, 1, "0 training and 2 test labels, and there are 1 and 2"),
        (1, 1, 2, 1, "1 training and 1 test labels, and there are 1 and 2"),
        (1, 2, 1, 1, "1 dark and 1 dark test labels, and there are 2 and 1"),
        (1, 2, 3, 1, "3 dark and 1 dark test labels, and there are 2 and 1"),
        (1, 2, 2, 0, "2 dark and 0 dark test labels, and there are 2 and 1"),
        (1, 2, 2, 2, "2 dark and 2 dark test labels, and there are 2 and 1"),
    ] {
        let told = format!("the trailer says {told}");
        let trailer = words([3, training, test, dark, dark_test, 96]);
        refused(&[&labels[..], &trailer].concat(), "13 at 3", &[&told]);
        if (training, test) != (1, 2) {
            let trailer = words([3, training, test, 88]);
            refused(&[&labels[..], &trailer].concat(), "13 at 3", &[&told]);
        }
    }
}

/// A full disk is no success, and a reader that went away is no panic.
#[test]
fn standard_output() {
    let folder = Folder::new();
    folder.write("day", LABELS);
    folder.write("bad", "");
    for words in [
        &["list", "day"][..],
        &["list", "--csv", "day"],
        &["list", "--json", "day"],
        &["list", "bad"],
        &["help"],
        &["--version"],
        &["list", "--help"],
    ] {
        let run = folder.shell("\"$@\" >/dev/full", words);
        run.is(3, "").tells(&["yurdelmiz: standard output: No space left on device"]);
    }
    // A limit on the file's size, within the listing.
    let run = folder.shell("ulimit -f 8; \"$@\" >listed", &["list", "day"]);
    run.is(3, "").tells(&["standard output: File too large"]);
    let (reader, writer) = io::pipe().unwrap();
    drop(reader);
    let output = folder.command(["list", "day"]).stdout(writer).output().unwrap();
    assert_eq!((output.status.code(), output.stderr), (Some(3), vec![]));
}
