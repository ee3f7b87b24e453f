//! `sets`: sets put in any order stand by epoch, the set for a time labels as its elements file does, and what is
//! refused leaves every file as it is.

mod common;

use std::ffi::OsStr;
use std::fs::{self, File, Permissions};
use std::os::unix::ffi::OsStrExt;
use std::os::unix::fs::{symlink, MetadataExt, PermissionsExt};
use std::process::Command;

use common::{changed, elements, Folder, Run, LABELLED, LABELS};
use yurdelmiz::{parse_elements, Elements};

/// The example's elements in two lines, and what they do not have.
const TWO_LINES: &str = include_str!("../../../examples/oscar10/set.tle");
const BESIDE: [&str; 6] = ["--axis", "26100000", "--node-rate", "-1724", "--perigee-rate", "2834"];

/// The bytes of a row.
const ROW: usize = 52;

const TABLE_REFUSED: &str =
    "refused 21 at 0: a table of element sets has a wrong length, is not in rising order of epoch, \
     or has a set that is refused\n";

const NO_SET: &str =
    "refused 23 at 0: no past set has an epoch up to the time, and there is no forecast set\n";

/// The example's elements with another epoch and revolution.
fn text_at(epoch: i64) -> String {
    let text = changed("-138406500", &epoch.to_string());
    text.replacen("1627", &epoch.rem_euclid(99_999).to_string(), 1)
}

fn set_at(epoch: i64) -> Elements {
    parse_elements(text_at(epoch).as_bytes()).unwrap()
}

fn table(sets: &[Elements]) -> Vec<u8> {
    sets.iter().flat_map(Elements::to_bytes).collect()
}

fn table_at(epochs: &[i64]) -> Vec<u8> {
    table(&epochs.iter().map(|epoch| set_at(*epoch)).collect::<Vec<_>>())
}

/// Puts the set of an epoch into `past`.
fn put(folder: &Folder, epoch: i64) -> Run {
    folder.write("set", text_at(epoch));
    folder.run(["sets", "put", "past", "set"])
}

/// With the tables `past` and `forecast`.
fn with_tables(past: &[i64], forecast: &[i64]) -> Folder {
    let folder = Folder::new();
    folder.write("past", table_at(past));
    folder.write("forecast", table_at(forecast));
    folder
}

fn find(folder: &Folder, time: &str) -> Run {
    folder.run(["sets", "find", "past", "forecast", time])
}

/// What `find` prints of a set.
fn found(kind: &str, row: usize, date: &str, epoch: i64) -> String {
    format!("# {kind} set, row {row} (from 0) of {kind}, epoch {date}\n{}", text_at(epoch))
}

#[test]
fn sets_in_any_order() {
    for order in [[0, 1, 2], [0, 2, 1], [1, 0, 2], [1, 2, 0], [2, 0, 1], [2, 1, 0]] {
        let folder = Folder::new();
        let epochs = [-138_406_500, 0, 86_399];
        let dates = ["1985-08-12T01:45:00Z", "1989-12-31T00:00:00Z", "1989-12-31T23:59:59Z"];
        let mut there: Vec<usize> = Vec::new();
        for at in order {
            there.push(at);
            there.sort_unstable();
            let row = there.iter().position(|other| *other == at).unwrap();
            let made = if there.len() == 1 { " table made" } else { "" };
            let (date, epoch, sets) = (dates[at], epochs[at], there.len());
            let line = format!("put row {row} epoch {date} {epoch} sets {sets}{made}\n");
            put(&folder, epoch).is(0, &line).tells(&["eccentricity 0.6100000\n"]);
            let due: Vec<i64> = there.iter().map(|at| epochs[*at]).collect();
            assert_eq!(folder.read("past"), table_at(&due));
            assert_eq!(folder.names(), ["past", "set"]);
        }
    }
}

/// A set over the one of its epoch: the other rows keep their bytes.
#[test]
fn a_set_of_the_same_epoch() {
    let folder = with_tables(&[-5, 0, 7], &[]);
    for (row, epoch, date) in [
        (0, -5, "1989-12-30T23:59:55Z"),
        (1, 0, "1989-12-31T00:00:00Z"),
        (2, 7, "1989-12-31T00:00:07Z"),
    ] {
        let mut sets = [-5, 0, 7].map(set_at);
        folder.write("past", table(&sets));
        folder.write("set", text_at(epoch).replacen("node 1445972322", "node 7", 1));
        let line = format!("replaced row {row} epoch {date} {epoch} sets 3\n");
        folder.run(["sets", "put", "past", "set"]).is(0, &line);
        sets[row].node = 7;
        assert_eq!(folder.read("past"), table(&sets));
    }
}

#[test]
fn two_line_elements() {
    let folder = with_tables(&[0], &[]);
    folder.write("set.tle", TWO_LINES);
    let words = [&["sets", "put", "past", "set.tle"][..], &BESIDE].concat();
    folder.run(words).is(0, "put row 0 epoch 1985-08-12T01:45:00Z -138406500 sets 2\n");
    // Its epoch was moved back to the full second.
    let mut moved = parse_elements(elements().as_bytes()).unwrap();
    moved.mean_anomaly -= 29;
    assert_eq!(folder.read("past"), table(&[moved, set_at(0)]));

    let before = folder.read("past");
    let run = folder.run([
        "sets",
        "put",
        "past",
        "set.tle",
        "--axis=26100",
        "--node-rate=0",
        "--perigee-rate=0",
    ]);
    assert!(run.stdout.starts_with("refused 2 at 0: "), "{run:?}");
    run.fails(1).tells(&["yurdelmiz: --axis: the semi-major axis"]);
    folder.write("set.tle", TWO_LINES.replacen("129.3", "129.4", 1));
    let run = folder.run([&["sets", "put", "past", "set.tle"][..], &BESIDE].concat());
    assert!(run.stdout.starts_with("refused 18 at 0: "), "{run:?}");
    run.fails(1).tells(&["set.tle, line 3 (line 2 of the set): the checksum"]);
    folder.run(["sets", "put", "past", "set.tle"]).fails(1).tells(&[
        "it looks like two-line elements, which need --axis, --node-rate and --perigee-rate",
    ]);
    assert_eq!(folder.read("past"), before);
}

/// Before, at, between and after the epochs of the past sets.
#[test]
fn the_set_for_a_time() {
    let folder = with_tables(&[-100, 0, 7], &[-200, 50]);
    let first = found("past", 0, "1989-12-30 23:58:20", -100);
    let second = found("past", 1, "1989-12-31 00:00:00", 0);
    let third = found("past", 2, "1989-12-31 00:00:07", 7);
    let forecast = found("forecast", 0, "1989-12-30 23:56:40", -200);
    for (time, text) in [
        ("-101", &forecast),
        ("-300", &forecast),
        ("-100", &first),
        ("-1", &first),
        ("0", &second),
        ("-0", &second),
        ("6", &second),
        ("7", &third),
        ("1000000", &third),
        ("1989-12-30T23:58:19Z", &forecast),
        ("1989-12-31T00:00:06Z", &second),
        ("1989-12-31 00:00:07", &third),
    ] {
        let run = find(&folder, time);
        run.is(0, text);
        assert_eq!(run.stderr, "", "{time}");
    }
    folder.run(["sets", "find", "--", "past", "forecast", "-1"]).is(0, &first);
    folder.run(["sets", "find", "/dev/null", "forecast", "1000"]).is(0, &forecast);
    // One file as both tables.
    let run = folder.run(["sets", "find", "past", "past", "-101"]);
    run.is(0, &first.replacen("past", "forecast", 1));
}

/// A set that is found for a time too far from its epoch is told; label would refuse it.
#[test]
fn a_set_that_is_far_away() {
    let folder = with_tables(&[0], &[]);
    let text = found("past", 0, "1989-12-31 00:00:00", 0);
    for (time, told) in [
        (
            "31622401",
            "1991-01-01 00:00:01, is 366 days 00:00:01 after the epoch, 1989-12-31 00:00:00",
        ),
        ("3476476800", "2100-03-01 00:00:00, is outside 1900 March 1 to 2100 February 28"),
        ("9223372036854775807", "9223372036854775807 seconds from 1989-12-31 00:00:00, is outside"),
    ] {
        let run = find(&folder, time);
        run.is(0, &text).tells(&[
            &format!("yurdelmiz: warning: the time, {told}"),
            ": label refuses a record of it with 8\n",
        ]);
    }
    assert_eq!(find(&folder, "31622400").stderr, "");
    // With a derivative the bound is 30 days.
    let mut set = set_at(0);
    set.half_mean_motion_derivative = -1;
    folder.write("past", table(&[set]));
    assert_eq!(find(&folder, "2592000").stderr, "");
    find(&folder, "2592001").tells(&["is 30 days 00:00:01 after the epoch"]);
}

#[test]
fn no_set_for_a_time() {
    let folder = with_tables(&[-100, 0, 7], &[]);
    find(&folder, "-101").is(1, NO_SET).tells(&[
        "yurdelmiz: past has 3 sets, the first with the epoch 1989-12-30 23:58:20, after the time, 1989-12-30 \
         23:58:19; forecast has no sets\n",
    ]);
    find(&folder, "-9223372036854775808").is(1, NO_SET);
    folder.write("past", "");
    find(&folder, "0").is(1, NO_SET).tells(&["past has no sets; forecast has no sets\n"]);
    folder.run(["sets", "find", "/dev/null", "/dev/null", "0"]).is(1, NO_SET);
}

/// What is found labels as the elements that were put do, on standard output and in a file.
#[test]
fn labels_of_a_set_that_was_found() {
    let folder = Folder::with_example();
    folder.write("late", text_at(-136_000_000));
    for set in ["late", "elements"] {
        folder.run(["sets", "put", "past", set]).fails(0);
    }
    let words = ["sets", "find", "past", "/dev/null", "1985-08-29T13:45:00Z"];
    let run = folder.run(words);
    folder.write("found", &run.stdout);
    folder.run(["label", "found", "telemetry", "out"]).is(0, LABELLED);
    assert!(folder.read("out") == LABELS);
    folder.shell("\"$@\" | \"$1\" label /dev/stdin telemetry piped", &words).is(0, LABELLED);
    assert!(folder.read("piped") == LABELS);

    let line = "found past row 0 epoch 1985-08-12T01:45:00Z -138406500\n";
    folder.run([&words[..], &["-o", "written"]].concat()).is(0, line);
    assert_eq!(folder.read("written"), run.stdout.as_bytes());
    folder.write("written", "before");
    folder.run([&["sets", "find", "-o=written"][..], &words[2..]].concat()).is(0, line);
    assert_eq!(folder.read("written"), run.stdout.as_bytes());
}

/// A refusal, or a table that cannot be read, writes no file and leaves one that is there.
#[test]
fn a_file_that_is_not_written() {
    let folder = with_tables(&[0], &[]);
    folder.write("kept", "kept");
    let before = folder.names();
    for out in ["kept", "none"] {
        let run = folder.run(["sets", "find", "past", "forecast", "-1", "-o", out]);
        run.is(1, NO_SET);
        let run = folder.run(["sets", "find", "past", "gone", "-1", "-o", out]);
        run.is(3, "").tells(&["gone: cannot be read: No such file or directory"]);
        assert_eq!(folder.names(), before);
        assert_eq!(folder.read("kept"), b"kept");
    }
    fs::create_dir(folder.path("folder")).unwrap();
    symlink("kept", folder.path("link")).unwrap();
    for (out, told) in [
        ("folder", "folder: cannot be written: it is a folder"),
        ("link", "link: cannot be written: it is a symbolic link"),
        ("none/out", "none/out: cannot be written: the folder none: No such file or directory"),
    ] {
        let run = folder.run(["sets", "find", "past", "forecast", "0", "-o", out]);
        run.is(3, "").tells(&[told]);
    }
    for out in ["past", "./forecast"] {
        let run = folder.run(["sets", "find", "past", "forecast", "0", "-o", out]);
        run.is(2, "")
            .tells(&["is read, and cannot be written as well", "usage: yurdelmiz sets find "]);
    }
    assert_eq!(folder.read("past"), table_at(&[0]));
    assert_eq!(folder.read("kept"), b"kept");
}

/// A name with a line end in it stays in its comment.
#[test]
fn a_name_of_two_lines() {
    let folder = Folder::with_example();
    let name = "a\nnode 5 \\";
    folder.run(["sets", "put", name, "elements"]).fails(0);
    let run = folder.run(["sets", "find", name, "/dev/null", "0"]);
    let comment = "# past set, row 0 (from 0) of a\\nnode 5 \\\\, epoch 1985-08-12 01:45:00\n";
    run.is(0, &format!("{comment}{}", elements()));
}

#[test]
fn a_listing() {
    let folder = with_tables(&[-138_406_500, 86_399], &[]);
    let rest = "eccentricity 0.6100000, semi_major_axis 26100000 metres, inclination 25.6000 degrees, node 121.2000 \
                degrees, argument_of_perigee 40.1000 degrees, mean_anomaly 129.3000 degrees, mean_motion 2.05890000 \
                revolutions a day, node_rate -0.1724 degrees a day, perigee_rate 0.2834 degrees a day, \
                epoch_revolution";
    let d = "half_mean_motion_derivative 0.00000000 revolutions a day squared";
    let revolutions = [-138_406_500, 86_399].map(|epoch| set_at(epoch).epoch_revolution);
    let run = folder.run(["sets", "list", "past"]);
    run.is(
        0,
        &format!(
            "sets 2\n0 1985-08-12T01:45:00Z -138406500 {rest} {}, {d}\n1 1989-12-31T23:59:59Z 86399 {rest} {}, {d}\n",
            revolutions[0], revolutions[1]
        ),
    );
    assert_eq!(run.stderr, "");
    folder.run(["sets", "list", "forecast"]).is(0, "sets 0\n");
    folder.run(["sets", "list", "/dev/null"]).is(0, "sets 0\n");
    let piped = folder.shell("cat past | \"$@\"", &["sets", "list", "/dev/stdin"]);
    piped.is(0, &run.stdout);
}

/// The new set's refusals come first, also where the table is refused: nothing is changed, and nothing made.
#[test]
fn sets_that_are_refused() {
    let cases = [
        (
            1,
            "eccentricity 6100000",
            "eccentricity 9000001",
            "set, line 1: the eccentricity is above 0.9",
        ),
        (2, "26100000", "6599999", "set, line 2: the semi-major axis"),
        (3, "26100000", "16000000", "set, lines 1 and 2: the perigee"),
        (4, "305419896", "2147483649", "set, line 3: the inclination"),
        (5, "205890000", "19999999", "set, line 7: the mean motion"),
        (6, "-1724", "-200001", "set, line 8: a drift rate"),
        (7, "1627", "100000", "set, line 10: the epoch's revolution"),
        (
            8,
            "-138406500",
            "3476476800",
            "set, line 11: epoch 3476476800 is 2100-03-01 00:00:00, outside",
        ),
        (
            16,
            "derivative 0",
            "derivative 1000001",
            "set, line 12: half the mean motion's derivative",
        ),
    ];
    let folder = Folder::new();
    let sound = table_at(&[-5, 0]);
    for (number, from, to, told) in cases {
        folder.write("set", changed(from, to));
        folder.write("sound", &sound);
        folder.write("ragged", &sound[1..]);
        let before = folder.names();
        for name in ["sound", "ragged", "none"] {
            let run = folder.run(["sets", "put", name, "set"]);
            assert!(run.stdout.starts_with(&format!("refused {number} at 0: ")), "{run:?}");
            assert_eq!(run.stdout.lines().count(), 1);
            run.fails(1).tells(&[&format!("yurdelmiz: {told}")]);
            assert_eq!(folder.names(), before);
        }
        assert_eq!(
            (folder.read("sound"), folder.read("ragged")),
            (sound.clone(), sound[1..].to_vec())
        );
    }
    folder.write("set", changed("6100000", "0.61"));
    for name in ["sound", "none"] {
        let run = folder.run(["sets", "put", name, "set"]);
        assert!(
            run.stdout.starts_with("malformed line 1: eccentricity has a decimal point"),
            "{run:?}"
        );
        run.fails(1);
        assert!(!folder.has("none"));
    }
    assert_eq!(folder.read("sound"), sound);
}

/// Each fault of a table, in `put`, `list` and in either table of `find`, with the row and the reason.
#[test]
fn tables_that_are_refused() {
    let folder = Folder::with_example();
    folder.write("sound", table_at(&[0]));
    let sound = table_at(&[-100, 0, 7, 9]);
    let with = |row: usize, change: fn(&mut Elements)| {
        let mut sets = [-100, 0, 7, 9].map(set_at);
        change(&mut sets[row]);
        table(&sets)
    };
    for (bytes, told) in [
        (
            sound[..1].to_vec(),
            "bad: 1 bytes are 0 rows of 52 and 1 more: is the file cut short, or no table?\n",
        ),
        (
            sound[..4 * ROW - 1].to_vec(),
            "bad: 207 bytes are 3 rows of 52 and 51 more: is the file cut short, or no table?\n",
        ),
        (
            [&sound[..], &[0]].concat(),
            "bad: 209 bytes are 4 rows of 52 and 1 more: is the file cut short, or no table?\n",
        ),
        (
            table_at(&[-100, 0, 0, 7]),
            "bad, row 2 (from 0, at byte 104): its epoch, 1989-12-31 00:00:00, is that of the row before: no epoch \
             stands twice in a table\n",
        ),
        (
            table_at(&[-100, 7, 0, 9]),
            "bad, row 2 (from 0, at byte 104): its epoch, 1989-12-31 00:00:00, is before that of the row before, \
             1989-12-31 00:00:07: rows stand in rising order of epoch\n",
        ),
        (
            table_at(&[7, 0, 7, 0])[..3 * ROW + 4].to_vec(),
            "bad, row 1 (from 0, at byte 52): its epoch, 1989-12-31 00:00:00, is before that of the row before, \
             1989-12-31 00:00:07: rows stand in rising order of epoch; 160 bytes are 3 rows of 52 and 4 more\n",
        ),
        (
            with(0, |set| set.eccentricity = 9_000_001),
            "bad, row 0 (from 0, at byte 0): refused 1: the eccentricity is above 0.9: eccentricity 9000001 is \
             0.9000001; ",
        ),
        (
            with(3, |set| set.semi_major_axis = 0),
            "bad, row 3 (from 0, at byte 156): refused 2: the semi-major axis is not within 6,600 to 100,000 km: ",
        ),
        (
            with(1, |set| set.semi_major_axis = 10_000_000),
            "bad, row 1 (from 0, at byte 52): refused 3: the perigee is less than 6,478 km from the Earth's centre: ",
        ),
        (with(1, |set| set.inclination = u32::MAX), "row 1 (from 0, at byte 52): refused 4: "),
        (with(1, |set| set.mean_motion = 0), "row 1 (from 0, at byte 52): refused 5: "),
        (
            with(1, |set| set.perigee_rate = 200_001),
            "row 1 (from 0, at byte 52): refused 6: a drift rate is beyond 20 degrees a day: perigee_rate 200001 ",
        ),
        (with(1, |set| set.epoch_revolution = 100_000), "row 1 (from 0, at byte 52): refused 7: "),
        (
            with(3, |set| set.epoch = i64::MAX),
            "row 3 (from 0, at byte 156): refused 8: epoch 9223372036854775807 is 9223372036854775807 seconds from ",
        ),
        (
            with(2, |set| set.half_mean_motion_derivative = i32::MIN),
            "row 2 (from 0, at byte 104): refused 16: half the mean motion's derivative ",
        ),
        (elements().into_bytes(), "it is text, and no table\n"),
        (b"no table\n".to_vec(), "bad: 9 bytes are 0 rows of 52 and 9 more: it is text, and no table\n"),
    ] {
        folder.write("bad", &bytes);
        let before = folder.names();
        for words in [
            &["sets", "put", "bad", "elements"][..],
            &["sets", "list", "bad"],
            &["sets", "find", "bad", "sound", "0"],
            &["sets", "find", "sound", "bad", "0"],
            &["sets", "find", "bad", "/dev/null", "-1000"],
            &["sets", "find", "sound", "bad", "0", "-o", "none"],
        ] {
            let run = folder.run(words);
            run.is(1, TABLE_REFUSED).tells(&["yurdelmiz: bad", told]);
            assert_eq!(folder.names(), before);
            assert!(folder.read("bad") == bytes, "{words:?}");
        }
    }
    assert_eq!(folder.read("sound"), table_at(&[0]));
}

/// The library's refusals in the place of the elements, told as those of the other operand.
#[test]
fn swapped_operands() {
    let folder = with_tables(&[0], &[]);
    folder.write("elements", elements());
    let run = folder.run(["sets", "put", "elements", "past"]);
    run.fails(1).tells(&["past, line 1: ", "; is it the table? The order is TABLE ELEMENTS\n"]);
    assert_eq!(folder.read("elements"), elements().as_bytes());
    let run = folder.run([&["sets", "put", "elements", "past"][..], &BESIDE].concat());
    run.fails(1).tells(&["; is it the table? The order is TABLE ELEMENTS\n"]);
    // CSV is no table.
    folder.write("day.csv", "time,volts,amperes\n");
    let run = folder.run(["sets", "put", "past", "day.csv"]);
    run.fails(1);
    assert!(!run.stderr.contains("is it the"), "{}", run.stderr);
}

#[test]
fn files_that_cannot_be_used() {
    let folder = with_tables(&[0], &[]);
    folder.write("set", text_at(5));
    fs::create_dir(folder.path("folder")).unwrap();
    symlink("past", folder.path("link")).unwrap();
    symlink("nowhere", folder.path("dangling")).unwrap();
    assert!(Command::new("mkfifo").arg(folder.path("pipe")).status().unwrap().success());
    let before = folder.names();
    for (table, set, told) in [
        ("folder", "set", "folder: cannot be written: it is a folder"),
        (
            "link",
            "set",
            "link: cannot be written: it is a symbolic link: name the file itself, past",
        ),
        ("dangling", "set", "dangling: cannot be written: it is a symbolic link"),
        ("pipe", "set", "pipe: cannot be written: it is a pipe"),
        ("/dev/null", "set", "/dev/null: cannot be written: it is a device"),
        ("new/", "set", "new/: cannot be written: that is the name of a folder"),
        (
            "none/past",
            "set",
            "none/past: cannot be written: the folder none: No such file or directory",
        ),
        ("past", "none", "none: cannot be read: No such file or directory"),
        ("none", "folder", "folder: cannot be read: it is a folder"),
    ] {
        folder.run(["sets", "put", table, set]).is(3, "").tells(&[told]);
        assert_eq!(folder.names(), before);
        assert_eq!(folder.read("past"), table_at(&[0]));
    }
    for words in [["list", "none"], ["list", "folder"]] {
        let told = format!("{}: cannot be read: ", words[1]);
        folder.run([&["sets"][..], &words].concat()).is(3, "").tells(&[&told]);
    }
    for (past, forecast, told) in [
        ("none", "forecast", "none: cannot be read: No such file"),
        ("past", "none", "none: cannot be read: No such file"),
        ("past", "folder", "folder: cannot be read: it is a folder"),
    ] {
        folder.run(["sets", "find", past, forecast, "0"]).is(3, "").tells(&[told]);
    }
    for set in ["past", "./past", "link"] {
        let run = folder.run(["sets", "put", "past", set]);
        run.is(2, "")
            .tells(&["is read, and cannot be written as well", "usage: yurdelmiz sets put "]);
        assert_eq!(folder.read("past"), table_at(&[0]));
    }
}

/// Root may read and write everything; another user may not.
#[test]
fn permissions() {
    let folder = with_tables(&[0], &[]);
    let root = fs::metadata(folder.path("past")).unwrap().uid() == 0;
    fs::set_permissions(folder.path("past"), Permissions::from_mode(0o640)).unwrap();
    put(&folder, 5).is(0, "put row 1 epoch 1989-12-31T00:00:05Z 5 sets 2\n");
    assert_eq!(fs::metadata(folder.path("past")).unwrap().mode() & 0o7777, 0o640);
    fs::set_permissions(folder.path("past"), Permissions::from_mode(0o000)).unwrap();
    for run in [folder.run(["sets", "list", "past"]), put(&folder, 6)] {
        if root {
            run.fails(0);
        } else {
            run.is(3, "").tells(&["past: cannot be read: Permission denied"]);
        }
    }
}

/// A disk that is full within the table leaves it as it was, or leaves none; a full standard output does not.
#[test]
fn no_room() {
    let epochs: Vec<i64> = (0..100).collect();
    let folder = with_tables(&epochs, &[]);
    folder.write("set", text_at(100));
    let words = ["sets", "put", "past", "set"];
    let before = folder.read("past");
    let run = folder.shell("ulimit -f 8; \"$@\"", &words);
    run.is(3, "").tells(&["past: cannot be written: File too large", "it is as it was"]);
    assert_eq!(folder.read("past"), before);
    let run = folder.shell("ulimit -f 0; \"$@\"", &["sets", "put", "none", "set"]);
    run.is(3, "").tells(&["none: cannot be written: File too large", "nothing is left of it"]);
    assert_eq!(folder.names(), ["forecast", "past", "set"]);
    let run = folder.shell("\"$@\" >/dev/full", &words);
    run.is(3, "").tells(&["past is written, but standard output: No space left on device"]);
    assert_eq!(folder.read("past").len(), 101 * ROW);
    for words in [
        &["sets", "list", "past"][..],
        &["sets", "find", "past", "past", "0"],
        &["sets", "find", "past", "past", "-1", "-o", "found"],
    ] {
        let run = folder.shell("\"$@\" >/dev/full", words);
        run.is(3, "").tells(&["standard output: No space left on device"]);
    }
    let run =
        folder.shell("ulimit -f 0; \"$@\"", &["sets", "find", "past", "past", "0", "-o", "none"]);
    run.is(3, "").tells(&["none: cannot be written: File too large"]);
    assert_eq!(folder.names(), ["forecast", "found", "past", "set"]);
}

/// The most sets that a file has: a further one is refused, and a longer file not read.
#[test]
fn a_table_that_is_full() {
    const MOST: usize = 1 << 20;
    let folder = Folder::new();
    let mut bytes = set_at(0).to_bytes().repeat(MOST);
    for (row, epoch) in bytes.chunks_exact_mut(ROW).zip(0i64..) {
        row[..8].copy_from_slice(&epoch.to_le_bytes());
    }
    folder.write("past", &bytes);
    let refused = "refused 22 at 0: the table has no room for a set of another epoch\n";
    put(&folder, -1).is(1, refused).tells(&["past has 1,048,576 sets, the most in a file\n"]);
    assert!(folder.read("past") == bytes);
    let line = "replaced row 1048575 epoch 1990-01-12T03:16:15Z 1048575 sets 1048576\n";
    put(&folder, MOST as i64 - 1).is(0, line);
    bytes.truncate((MOST - 1) * ROW);
    bytes.extend(set_at(MOST as i64 - 1).to_bytes());
    assert!(folder.read("past") == bytes);

    File::options()
        .append(true)
        .open(folder.path("past"))
        .unwrap()
        .set_len((MOST * ROW) as u64 + 1)
        .unwrap();
    let told = ["past: cannot be read: it has over 54,525,952 bytes, and a table has at most 1,048,576 sets"];
    for words in [
        &["sets", "list", "past"][..],
        &["sets", "put", "past", "set"],
        &["sets", "find", "/dev/null", "past", "0"],
    ] {
        folder.run(words).is(3, "").tells(&told);
    }
    assert_eq!(folder.read("past").len(), MOST * ROW + 1);
    let endless = folder.run(["sets", "find", "/dev/zero", "past", "0"]);
    endless.is(3, "").tells(&["/dev/zero: cannot be read: it has over 54,525,952 bytes"]);
}

/// A reader that has read enough, as head has.
#[test]
fn a_reader_that_goes_away() {
    let epochs: Vec<i64> = (0..1_000).collect();
    let folder = with_tables(&epochs, &[]);
    let run = folder.shell("\"$@\" | head -n 1", &["sets", "list", "past"]);
    run.is(0, "sets 1000\n");
    assert_eq!(run.stderr, "");
}

/// A file whose name is no text.
#[test]
fn a_name_that_is_no_text() {
    let folder = Folder::with_example();
    let name = OsStr::from_bytes(b"p\xff");
    folder.run([OsStr::new("sets"), OsStr::new("put"), name, OsStr::new("elements")]).fails(0);
    let words = [OsStr::new("sets"), OsStr::new("find"), name, name, OsStr::new("0")];
    let run = folder.run(words);
    assert!(run.stdout.starts_with("# past set, row 0 (from 0) of p\\xff, epoch "), "{run:?}");
}
