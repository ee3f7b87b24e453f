//! `label` with elements files: what is accepted, and what is told of those that are not.

mod common;

use common::{changed, elements, Folder, EXAMPLE, LABELLED, LABELS};

const TOLD: &str = "\
eccentricity 0.6100000
semi_major_axis 26100000 metres
inclination 25.6000 degrees
node 121.2000 degrees
argument_of_perigee 40.1000 degrees
mean_anomaly 129.3000 degrees
mean_motion 2.05890000 revolutions a day
node_rate -0.1724 degrees a day
perigee_rate 0.2834 degrees a day
epoch_revolution 1627
epoch 1985-08-12 01:45:00
half_mean_motion_derivative 0.00000000 revolutions a day squared
";

#[test]
fn the_example_day() {
    let folder = Folder::with_example();
    folder.write("elements", EXAMPLE);
    let run = folder.label();
    run.is(0, LABELLED);
    assert_eq!(run.stderr, TOLD);
    assert_eq!(folder.read("out"), LABELS);
}

#[test]
fn over_an_output() {
    let folder = Folder::with_example();
    folder.write("out", "before");
    folder.label().is(0, LABELLED);
    assert_eq!(folder.read("out"), LABELS);
}

#[test]
fn no_record() {
    let folder = Folder::with_example();
    folder.write("telemetry", "");
    folder.label().is(0, "labelled 0 training 0 test 0\n");
    assert_eq!(folder.read("out").len(), 24);
}

/// Comments, empty lines and leading zeros.
#[test]
fn comments() {
    let folder = Folder::with_example();
    let text = changed("1627", "001627").replace('\n', "\n\n");
    folder.write("elements", format!("# A remark, with a tab\t\n\n{text}# The end\n"));
    folder.label().is(0, LABELLED);
    assert_eq!(folder.read("out"), LABELS);
}

/// A legal eccentricity that only a person can doubt is told in decimals.
#[test]
fn a_small_eccentricity() {
    let folder = Folder::with_example();
    folder.write("elements", changed("6100000", "61"));
    let run = folder.label();
    run.is(0, LABELLED);
    assert_eq!(run.stderr.lines().next(), Some("eccentricity 0.0000061"));
}

/// The first and the last second, days about leap days, and what stands outside.
#[test]
fn epochs_as_dates() {
    let folder = Folder::with_example();
    for (epoch, told) in [
        ("-2834956800", "1900-03-01 00:00:00"),
        ("3476476799", "2100-02-28 23:59:59"),
        ("0", "1989-12-31 00:00:00"),
        ("5184000", "1990-03-01 00:00:00"),
        ("68169600", "1992-02-28 00:00:00"),
        ("68256000", "1992-02-29 00:00:00"),
        ("-2834956801", "-2834956801 seconds from 1989-12-31 00:00:00"),
        ("-9223372036854775808", "-9223372036854775808 seconds from 1989-12-31 00:00:00"),
    ] {
        folder.write("elements", changed("-138406500", epoch));
        let run = folder.label();
        assert_eq!(run.stderr.lines().nth(10), Some(&*format!("epoch {told}")));
    }
}

/// A mean motion that changes is told with its sign and every place.
#[test]
fn a_mean_motion_that_changes() {
    let folder = Folder::with_example();
    for (half, told) in [("-1234", "-0.00001234"), ("1000000", "0.01000000")] {
        folder.write("elements", changed("derivative 0", &format!("derivative {half}")));
        let run = folder.label();
        assert!(run.stdout.starts_with("labelled 960 "), "{run:?}");
        let line = format!("half_mean_motion_derivative {told} revolutions a day squared");
        assert_eq!(run.stderr.lines().nth(11), Some(&*line));
        assert_ne!(folder.read("out"), LABELS);
    }
}

/// A malformed file, with no output and over one: the verdict, and the file and line on standard error.
#[track_caller]
fn malformed(elements: impl AsRef<[u8]>, line: u32, sentence: &str, told: &str) {
    let folder = Folder::with_example();
    folder.write("elements", elements);
    let verdict = format!("malformed line {line}: {sentence}\n");
    let place = format!("yurdelmiz: elements, line {line}: ");
    folder.label().is(1, &verdict).tells(&[&place, told]);
    assert!(!folder.has("out"));
    folder.write("out", "kept");
    folder.label().is(1, &verdict);
    assert_eq!(folder.read("out"), b"kept");
    assert_eq!(folder.names(), ["elements", "out", "telemetry"]);
}

fn due(name: &str) -> String {
    format!("{name}, one space and a number are due here: each element stands once, in its order")
}

#[test]
fn numbers_that_are_not_whole() {
    let point = "has a decimal point: write a whole number, in";
    for (from, to, line, sentence, told) in [
        (
            "6100000",
            "0.61",
            1,
            format!("eccentricity {point} units of 10^-7"),
            "0.61 is written 6100000",
        ),
        (
            "6100000",
            ".61",
            1,
            format!("eccentricity {point} units of 10^-7"),
            ".61 is written 6100000",
        ),
        (
            "305419896",
            "25.6",
            3,
            format!("inclination {point} units of 2^-32 turn"),
            "are written 305419896",
        ),
        (
            "26100000",
            "26100.0",
            2,
            format!("semi_major_axis {point} metres"),
            "26100.0 km 26100000",
        ),
        (
            "205890000",
            "2.0589",
            7,
            format!("mean_motion {point} units of 10^-8 revolution a day"),
            "205890000",
        ),
        (
            "-1724",
            "-0.1724",
            8,
            format!("node_rate {point} units of 10^-4 degree a day"),
            "are written -1724",
        ),
        (
            "derivative 0",
            "derivative -.00001234",
            12,
            format!("half_mean_motion_derivative {point} units of 10^-8 revolution a day squared"),
            "-.00001234 revolutions a day squared are written -1234",
        ),
    ] {
        malformed(changed(from, to), line, &sentence, told);
    }
    let whole = "is not a whole number, in";
    for (from, to, line, sentence, told) in [
        (
            "6100000",
            "0,61",
            1,
            format!("eccentricity {whole} units of 10^-7"),
            "0,61 is written 6100000",
        ),
        (
            "26100000",
            "261e5",
            2,
            format!("semi_major_axis {whole} metres"),
            "found \"semi_major_axis 261e5\"",
        ),
        (
            "node 1445972322",
            "node ",
            4,
            format!("node {whole} units of 2^-32 turn"),
            "found \"node \"",
        ),
        (
            "-138406500",
            "-",
            11,
            format!("epoch {whole} seconds from 1989 December 31, 0h"),
            "epoch -",
        ),
        ("-1724", "--1724", 8, format!("node_rate {whole} units of 10^-4 degree a day"), "--1724"),
        ("2834", "+2834", 9, format!("perigee_rate {whole} units of 10^-4 degree a day"), "+2834"),
        ("26100000", "-26100000", 2, format!("semi_major_axis {whole} metres"), "-26100000"),
        ("node ", "node  ", 4, format!("node {whole} units of 2^-32 turn"), "node  1445972322"),
        ("1627", "1627 ", 10, format!("epoch_revolution {whole} revolutions"), "1627 \""),
        ("1627", "1627#", 10, format!("epoch_revolution {whole} revolutions"), "1627#"),
    ] {
        malformed(changed(from, to), line, &sentence, told);
    }
}

#[test]
fn numbers_that_are_too_large() {
    for (from, to, line, sentence) in [
        ("6100000", "4294967296", 1, "eccentricity is too large, in units of 10^-7"),
        ("-1724", "2147483648", 8, "node_rate is too large, in units of 10^-4 degree a day"),
        ("-1724", "-2147483649", 8, "node_rate is too large, in units of 10^-4 degree a day"),
        (
            "-138406500",
            "9223372036854775808",
            11,
            "epoch is too large, in seconds from 1989 December 31, 0h",
        ),
        (
            "-138406500",
            "-9223372036854775809",
            11,
            "epoch is too large, in seconds from 1989 December 31, 0h",
        ),
        (
            "1627",
            "1111111111222222222233333333334444444444",
            10,
            "epoch_revolution is too large, in revolutions",
        ),
        (
            "derivative 0",
            "derivative 2147483648",
            12,
            "half_mean_motion_derivative is too large, in units of 10^-8 revolution a day squared",
        ),
    ] {
        malformed(changed(from, to), line, sentence, to);
    }
}

#[test]
fn names() {
    let lines: Vec<String> = elements().lines().map(|line| format!("{line}\n")).collect();
    let without = |number: usize| [&lines[..number], &lines[number + 1..]].concat().concat();
    malformed(without(1), 2, &due("semi_major_axis"), "found \"inclination 305419896\"");
    let twice = [&lines[..4], &lines[3..]].concat().concat();
    malformed(twice, 5, &due("argument_of_perigee"), "found \"node 1445972322\"");
    let mut swapped = lines.clone();
    swapped.swap(3, 4);
    malformed(swapped.concat(), 4, &due("node"), "found \"argument_of_perigee 478411634\"");
    for (from, to, line, name) in [
        ("inclination", "inclinations", 3, "inclination"),
        ("node ", "nod ", 4, "node"),
        ("node ", "node_rate ", 4, "node"),
        ("epoch -", "Epoch -", 11, "epoch"),
        ("node 1445972322", "node", 4, "node"),
        ("node ", " node ", 4, "node"),
    ] {
        malformed(changed(from, to), line, &due(name), "found");
    }
    malformed(without(10), 11, &due("epoch"), "found \"half_mean_motion_derivative 0\"");
    malformed(
        elements() + &lines[10],
        13,
        "only comments may follow the last element",
        "found \"epoch",
    );
    malformed(
        without(11),
        12,
        "half_mean_motion_derivative is missing: the file ends before it",
        "found the end of the file; write 0 where the mean motion is constant",
    );
    malformed("", 1, "eccentricity is missing: the file ends before it", "the file is empty");
}

/// Bytes that an editor or another system puts in are called by their names.
#[test]
fn bytes_of_editors() {
    let one_space = "one space stands between name and value, and nothing else";
    malformed(
        changed("node ", "node\t"),
        4,
        &format!("a tab stands here: {one_space}"),
        r#"found "node\t1445972322""#,
    );
    let windows = elements().replace('\n', "\r\n");
    malformed(&windows, 1, "the line ends with CR LF: end it with LF alone", r#"6100000\r""#);
    let remark = format!("# a remark\r\n{windows}");
    malformed(remark, 2, "the line ends with CR LF: end it with LF alone", r#"6100000\r""#);
    malformed(
        changed("node ", "node\r "),
        4,
        &format!("a carriage return stands here: {one_space}"),
        r"node\r ",
    );
    malformed(
        changed("node ", "node\x07"),
        4,
        &format!("the control byte 0x07 stands here: {one_space}"),
        "node",
    );
    malformed(
        format!("\u{feff}{}", elements()),
        1,
        "the file begins with a BOM, the bytes EF BB BF: save it as UTF-8 without BOM",
        "found",
    );
    let utf16: Vec<u8> = elements().bytes().flat_map(|byte| [byte, 0]).collect();
    malformed(
        [&b"\xff\xfe"[..], &utf16].concat(),
        1,
        "the file begins with the BOM of UTF-16: save it as UTF-8 without BOM",
        r#"found "\xff\xfe"#,
    );
}

#[test]
fn files_that_do_not_end_well() {
    let text = elements();
    malformed(text.trim_end(), 12, "the file ends within this line", "end it with LF");
    malformed(
        format!("{text}#{}\n", " ".repeat(70_000)),
        1,
        "the file has more than 65,535 bytes",
        "twelve lines and some comments",
    );
}

/// The telemetry in place of the elements.
#[test]
fn files_in_the_wrong_order() {
    let folder = Folder::with_example();
    folder.write("day.csv", "time,volts,amperes\n0,1,2\n");
    for words in [["telemetry", "elements"], ["day.csv", "elements"]] {
        let run = folder.run(["label", words[0], words[1], "out"]);
        run.fails(1).tells(&[words[0], "is it the telemetry?", "ELEMENTS TELEMETRY LABELS"]);
        assert!(!folder.has("out"));
    }
}

#[test]
fn a_lost_decimal_point_is_warned_of() {
    let folder = Folder::with_example();
    folder.write("elements", changed("205890000", "20589000"));
    let run = folder.label();
    assert!(run.stdout.starts_with("labelled 960 "), "{run:?}");
    run.fails(0).tells(&[
        "yurdelmiz: warning: elements: mean_motion 0.20589000 revolutions a day",
        "semi_major_axis 26100000 metres",
        "Kepler's third law",
        "2.0589 revolutions a day",
        "121,147 km",
    ]);
    // A percent is not warned of, and a refusal comes with the warning.
    folder.write("elements", changed("205890000", "207800000"));
    assert!(!folder.label().stderr.contains("warning"));
    folder.write("elements", changed("26100000", "2610000"));
    folder.label().fails(1).tells(&["warning: elements", "line 2"]);
}
