//! `label` with telemetry as CSV.

mod common;

use common::{Folder, LABELLED, LABELS, TELEMETRY};

/// The example's telemetry as CSV. Dates are those of `list --csv`, which reads them from the labels.
fn example_csv(folder: &Folder, date: impl Fn(&str) -> String, missing: &str) -> String {
    folder.write("day.labels", LABELS);
    let listed = folder.run(["list", "--csv", "day.labels"]).stdout;
    let mut text = "time,volts,amperes\n".to_owned();
    for (record, line) in TELEMETRY.chunks_exact(16).zip(listed.lines().skip(1)) {
        let number = |at: usize| {
            let number = f32::from_le_bytes(record[at..at + 4].try_into().unwrap());
            if number.is_nan() {
                missing.to_owned()
            } else {
                number.to_string()
            }
        };
        let time = date(line.split(',').next().unwrap());
        text.push_str(&format!("{time},{},{}\n", number(8), number(12)));
    }
    text
}

/// The same labels as from the records, however it is written.
#[test]
fn the_example_day() {
    let folder = Folder::with_example();
    let plain = example_csv(&folder, str::to_owned, "nan");
    let first = plain.lines().nth(1).unwrap();
    assert_eq!(first, "1985-08-29T13:45:00Z,14.24,0.404");
    let seconds = {
        let listed = folder.run(["list", "day.labels"]).stdout;
        let mut lines =
            listed.lines().skip(1).map(|line| line.split(' ').next().unwrap().to_owned());
        let lines = std::cell::RefCell::new(&mut lines);
        example_csv(&folder, |_| lines.borrow_mut().next().unwrap(), "")
    };
    let spaced = example_csv(&folder, |date| date.replace('T', " ").replace('Z', ""), "NaN");
    for (name, text) in [
        ("plain.csv", plain.clone()),
        ("SECONDS.CSV", seconds),
        ("spaced.csv", spaced),
        ("windows.csv", format!("\u{feff}{}", plain.replace('\n', "\r\n"))),
    ] {
        folder.write(name, text);
        folder.run(["label", "elements", name, "out"]).is(0, LABELLED);
        assert_eq!(folder.read("out"), LABELS, "{name}");
    }
    // By the option, whatever the name.
    folder.write("telemetry", plain);
    for words in [
        ["label", "--csv", "elements", "telemetry", "out"],
        ["label", "elements", "telemetry", "out", "--csv"],
    ] {
        std::fs::remove_file(folder.path("out")).unwrap();
        folder.run(words).is(0, LABELLED);
        assert_eq!(folder.read("out"), LABELS);
    }
}

/// A bad line is told with its number, and nothing is written.
#[test]
fn bad_lines() {
    let folder = Folder::with_example();
    let text = |line: &str| format!("time,volts,amperes\n0,1,2\n{line}\n");
    for (text, line, sentence) in [
        (text("1,x,2"), 3, "volts \"x\" is no decimal number; leave it empty where it is missing"),
        (text("1,1"), 3, "2 fields, and three are due: time, volts, amperes"),
        (text("1985-08-29T13:45:00.5Z,1,2"), 3, "has a fraction of a second: write whole seconds"),
        (text("1985-08-29T23:59:60Z,1,2"), 3, "is a leap second"),
        (text("1985-08-29T13:45:00+01:00,1,2"), 3, "is in another zone, +01:00: write it in UTC"),
        (text("1\t1\t2"), 3, "a tab stands here: commas separate the fields"),
        (text("1,1,2\u{feff}"), 3, "amperes"),
        ("0,1,2\n".to_owned(), 1, "the header is missing: the first line is time,volts,amperes"),
        ("time,volts,amperes\n0,1,2".to_owned(), 2, "the file ends within this line"),
        (String::new(), 1, "the file has no header, time,volts,amperes"),
    ] {
        folder.write("day.csv", text);
        for kept in [None, Some("kept")] {
            if let Some(kept) = kept {
                folder.write("out", kept);
            }
            let run = folder.run(["label", "elements", "day.csv", "out"]);
            let place = format!("yurdelmiz: day.csv, line {line}: ");
            run.fails(1).tells(&[&place, sentence]);
            let verdict = format!("malformed line {line} of the telemetry: ");
            assert!(run.stdout.starts_with(&verdict) && run.stdout.contains(sentence), "{run:?}");
            match kept {
                Some(kept) => assert_eq!(folder.read("out"), kept.as_bytes()),
                None => assert!(!folder.has("out")),
            }
        }
        std::fs::remove_file(folder.path("out")).unwrap();
    }
}

/// Records of 16 bytes that are called CSV.
#[test]
fn records_as_csv() {
    let folder = Folder::with_example();
    let run = folder.run(["label", "--csv", "elements", "telemetry", "out"]);
    run.fails(1).tells(&["telemetry, line 1: this is no text", "16-byte records"]);
    assert!(!folder.has("out"));
}

/// A refused record is named by its line.
#[test]
fn refused_records() {
    let folder = Folder::with_example();
    let good = "1985-08-29T13:45:00Z,14,1\n";
    folder
        .write("day.csv", format!("time,volts,amperes\n{good}\n{good}2101-01-01T00:00:00Z,1,1\n"));
    let run = folder.run(["label", "elements", "day.csv", "out"]);
    assert!(run.stdout.starts_with("refused 8 at 2: "), "{run:?}");
    run.fails(1)
        .tells(&["day.csv, line 5 (record 2, from 0): the record's time is 2101-01-01 00:00:00"]);
    folder.write("day.csv", format!("time,volts,amperes\n{}", good.repeat(1_025)));
    let run = folder.run(["label", "elements", "day.csv", "out"]);
    run.fails(1).tells(&["day.csv: 1,025 records, and a day has at most 1,024: label it in parts"]);
    folder.write("day.csv", format!("time,volts,amperes\n{}", good.repeat(1_024)));
    folder.run(["label", "elements", "day.csv", "out"]).fails(0);
    folder.write("day.csv", "time,volts,amperes\n");
    folder.run(["label", "elements", "day.csv", "out"]).is(0, "labelled 0 training 0 test 0\n");
}

/// Readings as the rules have them: missing, saturated, and the product rounded once.
#[test]
fn readings() {
    let folder = Folder::with_example();
    let mut text = "time,volts,amperes\n".to_owned();
    for (volts, amperes) in [
        ("", "1"),
        ("1", "nan"),
        ("inf", "1"),
        ("-inf", "nan"),
        ("1e30", "1e30"),
        ("1e39", "0"),
        ("0.1", "0.2"),
        ("-0.0", "1"),
    ] {
        text.push_str(&format!("1985-08-29T13:45:00Z,{volts},{amperes}\n"));
    }
    folder.write("day.csv", text);
    folder.run(["label", "elements", "day.csv", "out"]).fails(0);
    let listed = folder.run(["list", "out"]).stdout;
    let readings: Vec<String> = listed
        .lines()
        .skip(1)
        .map(|line| {
            let words: Vec<&str> = line.split(' ').collect();
            format!("{} {}", words[4], words[6])
        })
        .collect();
    let product = (0.1f32 * 0.2f32).to_bits();
    assert_eq!(
        readings,
        [
            "0 00000000",
            "0 00000000",
            "2 00000000",
            "0 00000000",
            "2 00000000",
            "2 00000000",
            &format!("1 {product:08x}"),
            "1 80000000",
        ]
    );
}
