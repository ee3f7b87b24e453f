//! `label` and `add` with two-line elements: what is taken, what is refused with which place, and what is told of
//! files and options that cannot be taken.

mod common;

use common::{elements, Folder, Run, EXAMPLE, LABELLED, LABELS, TELEMETRY};

const NAME: &str = "OSCAR 10";
const ONE: &str = "1 14129U 83058B   85224.07291667  .00000000  00000-0  00000-0 0    14";
const TWO: &str = "2 14129  25.6000 121.2000 6100000  40.1000 129.3000  2.05890000 16275";

const OPTIONS: [&str; 6] = ["--axis", "26100000", "--node-rate", "-1724", "--perigee-rate", "2834"];

/// The example's elements as they are told.
const TOLD: &str = "\
eccentricity 0.6100000
semi_major_axis 26100000 metres
inclination 25.6000 degrees
node 121.2000 degrees
argument_of_perigee 40.1000 degrees
mean_anomaly 129.3000 degrees
mean_motion 2.05890000 revolutions a day
node_rate -0.1724 degrees a day
perigee_rate 0.2834 degrees a day
epoch_revolution 1627
epoch 1985-08-12 01:45:00
half_mean_motion_derivative 0.00000000 revolutions a day squared
";

/// A line with another piece from a column on, and with its checksum.
fn with(line: &str, column: usize, piece: &str) -> String {
    let line = format!("{}{piece}{}", &line[..column - 1], &line[column - 1 + piece.len()..68]);
    let sum: u32 = line
        .bytes()
        .map(|it| if it == b'-' { 1 } else { (it as char).to_digit(10).unwrap_or(0) })
        .sum();
    format!("{line}{}", sum % 10)
}

fn set(one: &str, two: &str) -> String {
    format!("{one}\n{two}\n")
}

/// The example's telemetry, and these elements.
fn folder(elements: impl AsRef<[u8]>) -> Folder {
    let folder = Folder::new();
    folder.write("elements", elements);
    folder.write("telemetry", TELEMETRY);
    folder
}

fn words<'a>(command: &'a str, options: &[&'a str]) -> Vec<&'a str> {
    [&[command][..], options, &["elements", "telemetry", "out"]].concat()
}

fn label(folder: &Folder) -> Run {
    folder.run(words("label", &OPTIONS))
}

#[test]
fn the_example_day() {
    let folder = folder(include_bytes!("../../../examples/oscar10/set.tle"));
    let run = label(&folder);
    run.is(0, LABELLED);
    assert_eq!(run.stderr, TOLD);
    assert!(folder.read("out") == LABELS);
}

/// The options stand anywhere, and a value behind a space or an equals sign; one begins with a minus.
#[test]
fn options() {
    for words in [
        &[
            "label",
            "elements",
            "telemetry",
            "out",
            "--axis=26100000",
            "--node-rate=-1724",
            "--perigee-rate=2834",
        ][..],
        &[
            "label",
            "--perigee-rate",
            "2834",
            "elements",
            "--node-rate",
            "-1724",
            "telemetry",
            "--axis",
            "026100000",
            "out",
        ],
        &[
            "label",
            "--axis=26100000",
            "--node-rate",
            "-1724",
            "--perigee-rate=2834",
            "--",
            "elements",
            "telemetry",
            "out",
        ],
    ] {
        let folder = folder(set(ONE, TWO));
        let run = folder.run(words);
        run.is(0, LABELLED);
        assert_eq!(run.stderr, TOLD);
        assert!(folder.read("out") == LABELS);
    }
    // A rate below zero for either, and zero.
    let folder = folder(set(ONE, TWO));
    let words =
        words("label", &["--axis", "26100000", "--node-rate", "0", "--perigee-rate", "-2834"]);
    folder
        .run(words)
        .fails(0)
        .tells(&["node_rate 0.0000 degrees a day\n", "perigee_rate -0.2834 degrees a day\n"]);
    // CSV beside them.
    folder.write("telemetry", "time,volts,amperes\n1985-08-29T13:45:00Z,14,1\n");
    let csv = [&["label", "--csv"][..], &OPTIONS, &["elements", "telemetry", "out"]].concat();
    folder.run(csv).is(0, "labelled 1 training 1 test 0\n");
}

/// With a name or none, with a last LF or none, with empty lines.
#[test]
fn files() {
    for text in [
        set(ONE, TWO),
        format!("{ONE}\n{TWO}"),
        format!("{NAME}\n{ONE}\n{TWO}"),
        format!("0 {NAME}\n{ONE}\n{TWO}\n\n\n"),
        format!("\n{NAME}\n\n{ONE}\n  \n{TWO}\n   \n"),
        format!("{}\n{ONE}\n{TWO}\n", "x".repeat(1_000)),
    ] {
        let folder = folder(&text);
        label(&folder).is(0, LABELLED);
        assert!(folder.read("out") == LABELS, "{text}");
    }
    let folder = folder([b"\xff\x00\x1b\r\n", set(ONE, TWO).as_bytes()].concat());
    label(&folder).is(0, LABELLED);
}

/// The epoch goes back to the full second, and a mean anomaly of zero with it below zero, into the revolution ahead.
#[test]
fn a_part_of_a_second() {
    let folder = folder(set(&with(ONE, 24, ".07291666"), TWO));
    label(&folder)
        .fails(0)
        .tells(&["epoch 1985-08-12 01:44:59\n", "mean_anomaly 129.2914 degrees\n"]);
    let two = with(&with(TWO, 35, "  0.0000"), 44, "  0.0000");
    folder.write("elements", set(&with(ONE, 24, ".07291666"), &two));
    label(&folder).fails(0).tells(&["epoch_revolution 1626\n", "mean_anomaly 359.9914 degrees\n"]);
}

#[test]
fn a_stream() {
    let folder = folder(format!("{NAME}\n{ONE}\n{TWO}\n"));
    let stream = [&["label"][..], &OPTIONS, &["elements", "-", "out"]].concat();
    let run = folder.shell("cat telemetry | \"$@\"", &stream);
    run.is(0, LABELLED);
    assert_eq!(run.stderr, TOLD);
    assert!(folder.read("out") == LABELS);
    folder.write("elements", set(&with(ONE, 19, "8x"), TWO));
    let run = folder.shell("cat telemetry | \"$@\"", &stream);
    assert!(run.stdout.starts_with("refused 19 at 19: "), "{run:?}");
    run.fails(1)
        .tells(&["yurdelmiz: elements, line 1, columns 19 to 20: year of the epoch \"8x\""]);
    assert!(folder.read("out") == LABELS);
}

#[test]
fn added() {
    let folder = folder(set(ONE, TWO));
    let (first, rest) = TELEMETRY.split_at(16 * 480);
    folder.write("telemetry", first);
    label(&folder).fails(0);
    folder.write("telemetry", rest);
    let add = words("add", &OPTIONS);
    let run = folder.run(&add);
    run.is(0, "added 480 labelled 960 training 227 test 267\n");
    assert_eq!(run.stderr, TOLD);
    assert!(folder.read("out") == LABELS);
    folder.write("elements", set(ONE, &with(TWO, 9, "360.0000")));
    let run = folder.run(&add);
    assert!(run.stdout.starts_with("refused 19 at 78: "), "{run:?}");
    run.fails(1).tells(&[
        "elements, line 2, columns 9 to 16: inclination \"360.0000\": it is 360 degrees or more",
    ]);
    folder.write("elements", elements());
    folder.run(&add).fails(1).tells(&["line 1: this is a line of an elements file"]);
    folder.write("elements", set(ONE, TWO));
    folder.run(words("add", &[])).fails(1).tells(&["it looks like two-line elements"]);
    assert!(folder.read("out") == LABELS);
    assert_eq!(folder.names(), ["elements", "out", "telemetry"]);
}

/// A file that is not taken, with no output and over one: the verdict, and what is told.
#[track_caller]
fn not_taken(elements: impl AsRef<[u8]>, options: &[&str], verdict: &str, told: &[&str]) {
    let folder = folder(elements);
    let words = words("label", options);
    folder.run(&words).is(1, &format!("{verdict}\n")).tells(told);
    assert!(!folder.has("out"));
    folder.write("out", "kept");
    let run = folder.run(&words);
    run.is(1, &format!("{verdict}\n"));
    // No elements were taken.
    assert!(run.stderr.lines().all(|line| line.starts_with("yurdelmiz: ")), "{}", run.stderr);
    assert_eq!(folder.read("out"), b"kept");
    assert_eq!(folder.names(), ["elements", "out", "telemetry"]);
}

#[track_caller]
fn refused(elements: impl AsRef<[u8]>, verdict: &str, told: &[&str]) {
    not_taken(elements, &OPTIONS, &format!("refused {verdict}"), told);
}

const LINES: &str =
    "17 at 0: a line of the two has not 69 bytes, or does not begin with its number";

#[test]
fn lines() {
    refused(
        set(ONE, &TWO.replace("  25", " 25")),
        LINES,
        &[
            "yurdelmiz: elements, line 2: its length is 68, and not 69: the point of the inclination is not \
             in column 12: look ahead of it; found \"2 14129 25.6000 ",
        ],
    );
    refused(
        format!("{NAME}\n{ONE} \n{TWO}\n"),
        LINES,
        &["elements, line 2 (line 1 of the set): its length is 70, and not 69: blanks stand at its end"],
    );
    refused(
        set(TWO, ONE),
        LINES,
        &[
            "line 1: it begins with \"2\", and not with 1",
            "line 2: it begins with \"1\", and not with 2",
        ],
    );
    // Bytes that are no text, and a line of which nothing is there.
    refused(
        [b"\xfe\n\0\x80\n\xff" as &[u8]].concat(),
        LINES,
        &[r#"found "\u{0}\x80""#, r#"found "\xff""#],
    );
    refused(
        format!("{NAME}\n{ONE}\n."),
        LINES,
        &["line 3 (line 2 of the set): its length is 1, and not 69"],
    );
}

#[test]
fn cr_lf() {
    let text = format!("{NAME}\n{ONE}\n{TWO}\n").replace('\n', "\r\n");
    refused(
        text,
        LINES,
        &[
            "yurdelmiz: elements, line 2 (line 1 of the set) and line 3 (line 2 of the set): the line ends with CR \
             LF: convert the file, so that each ends with LF alone\n",
        ],
    );
    let convert = "convert the file, so that each ends with LF alone";
    for (text, line, what) in [
        (format!("{ONE}\r\n{TWO}\r\n\r\n"), 3, "the line ends with CR LF"),
        (format!("{ONE}\r{TWO}\r"), 1, "the lines end with CR alone"),
    ] {
        malformed(text, &format!("line {line}: {what}: {convert}"), &[]);
    }
}

#[test]
fn checksums() {
    refused(
        set(ONE, &TWO.replace("129.3", "129.4")),
        "18 at 0: a line of the two does not end with its checksum",
        &[
            "yurdelmiz: elements, line 2: the checksum of its first 68 columns is 6, and column 69 has \"5\": a digit or \
             a minus is wrong, lost or put in; compare it with the line as it came; found \"2 14129  25.6000 121.2000 6100000  \
             40.1000 129.4000  2.05890000 16275\"\n",
        ],
    );
}

#[test]
fn fields() {
    let field =
        "a field of the two lines does not fit its layout, or is 360 degrees or more, or a day \
                 outside its year";
    for (text, place, told) in [
        (
            set(ONE, &with(TWO, 18, "12l")),
            87,
            "line 2, columns 18 to 25: right ascension of the ascending node \"12l.2000\": column 20 has \"l\", where a \
             digit is due; the field has three columns ahead of the point, leading blanks allowed, and four digits \
             behind it, in degrees below 360",
        ),
        (
            format!("{NAME}\n{ONE}\n{}", with(TWO, 35, "400.1000")),
            104,
            "line 3 (line 2 of the set), columns 35 to 42: argument of perigee \"400.1000\": it is 360 degrees or more",
        ),
        (
            set(&with(ONE, 21, "000.50000000"), TWO),
            21,
            "line 1, columns 21 to 32: day of the epoch \"000.50000000\": the year is 1985, and has the days 1 to 365",
        ),
        (
            set(&with(ONE, 19, "85 24"), TWO),
            21,
            "line 1, columns 21 to 32: day of the epoch \" 24.07291667\": column 21 has \" \", where a digit is due",
        ),
    ] {
        let told = format!("yurdelmiz: elements, {told}");
        refused(text, &format!("19 at {place}: {field}"), &[&told]);
    }
}

#[test]
fn satellite_numbers() {
    refused(
        set(ONE, &with(TWO, 3, "14128")),
        "20 at 0: the two lines have different satellite numbers",
        &[
            "yurdelmiz: elements, line 1, columns 3 to 7: \"14129\", and line 2, columns 3 to 7: \"14128\": the \
             satellite numbers differ; are the two lines of one set?\n",
        ],
    );
}

/// The elements by their columns, and what is beside them by its option.
#[test]
fn refused_elements() {
    let perigee = "the perigee is less than 6,478 km from the Earth's centre";
    let derivative = "half the mean motion's derivative is beyond 0.01 revolutions a day squared, or brings the mean \
                      motion below 0.2 revolutions a day within 30 days of the epoch";
    for (text, number, sentence, told) in [
        (
            set(ONE, &with(TWO, 27, "9000001")),
            1,
            "the eccentricity is above 0.9",
            "elements, line 2, columns 27 to 33: the eccentricity is above 0.9: eccentricity \"9000001\" is 0.9000001; \
             check its digits, it counts units of 10^-7, with its point implied\n",
        ),
        (
            set(ONE, &with(TWO, 27, "8000000")),
            3,
            perigee,
            "elements, line 2, columns 27 to 33, and --axis: the perigee is less than 6,478 km from the Earth's centre: \
             eccentricity 0.8000000 and semi_major_axis 26,100,000 metres put it at 5,220 km; check their digits\n",
        ),
        (
            format!("{NAME}\n{ONE}\n{}\n", with(TWO, 9, "180.0001")),
            4,
            "the inclination is above 180 degrees",
            "elements, line 3 (line 2 of the set), columns 9 to 16: the inclination is above 180 degrees: inclination \
             \"180.0001\" is 180.0001 degrees; check its digits, it counts degrees\n",
        ),
        (
            set(ONE, &with(TWO, 53, "  .19999999")),
            5,
            "the mean motion is not within 0.2 to 17 revolutions a day",
            "elements, line 2, columns 53 to 63: the mean motion is not within 0.2 to 17 revolutions a day: mean_motion \
             \"  .19999999\" is 0.19999999 revolutions a day; check its digits, it counts revolutions a day\n",
        ),
        (
            // Past 32 bits.
            set(ONE, &with(TWO, 53, "99.99999999")),
            5,
            "the mean motion is not within 0.2 to 17 revolutions a day",
            "mean_motion \"99.99999999\" is 99.99999999 revolutions a day",
        ),
        (
            set(&with(ONE, 34, "-.01000001"), TWO),
            16,
            derivative,
            "brings the mean motion below 0.2 revolutions a day within 30 days of the epoch: \
             half_mean_motion_derivative \"-.01000001\" is -0.01000001 revolutions a day squared; check its digits, it \
             counts revolutions a day squared\n",
        ),
        (
            set(&with(ONE, 34, "+.01000000"), &with(TWO, 53, " 0.79999999")),
            16,
            derivative,
            "mean_motion 0.79999999 revolutions a day and half_mean_motion_derivative 0.01000000 revolutions a day \
             squared put it at 0.19999999 revolutions a day 30 days before the epoch; check their digits\n",
        ),
    ] {
        refused(text, &format!("{number} at 0: {sentence}"), &[told]);
    }
    refused(
        set(&with(ONE, 34, " .01000000"), &with(TWO, 53, " 0.79999999")),
        &format!("16 at 0: {derivative}"),
        &["yurdelmiz: elements, line 2, columns 53 to 63, and line 1, columns 34 to 43: "],
    );
}

#[test]
fn refused_options() {
    let axis = "the semi-major axis is not within 6,600 to 100,000 km";
    let rate = "a drift rate is beyond 20 degrees a day";
    for (values, number, sentence, told) in [
        (
            ["26100", "-1724", "2834"],
            2,
            axis,
            "--axis: the semi-major axis is not within 6,600 to 100,000 km: semi_major_axis 26100 is 26100 metres; check \
             its digits, it counts metres; 26100 km are written 26100000\n",
        ),
        (
            ["4294967295", "0", "0"],
            2,
            axis,
            "--axis: the semi-major axis is not within 6,600 to 100,000 km: semi_major_axis 4294967295 is 4294967295 \
             metres; check its digits, it counts metres\n",
        ),
        (
            ["26100000", "-200001", "200001"],
            6,
            rate,
            "--node-rate: a drift rate is beyond 20 degrees a day: node_rate -200001 is -20.0001 degrees a day; check its \
             digits, it counts units of 10^-4 degree a day\n",
        ),
        (
            ["26100000", "200000", "-2147483648"],
            6,
            rate,
            "--perigee-rate: a drift rate is beyond 20 degrees a day: perigee_rate -2147483648 is -214748.3648 degrees",
        ),
    ] {
        let [axis, node_rate, perigee_rate] = values;
        let options = ["--axis", axis, "--node-rate", node_rate, "--perigee-rate", perigee_rate];
        let verdict = format!("refused {number} at 0: {sentence}");
        not_taken(set(ONE, TWO), &options, &verdict, &[&format!("yurdelmiz: {told}")]);
    }
}

/// The axis comes beside the lines: where it and the mean motion disagree is told, accepted or refused.
#[test]
fn the_third_law() {
    let folder = folder(set(ONE, TWO));
    let warning = "yurdelmiz: warning: elements: mean_motion 2.05890000 revolutions a day and semi_major_axis";
    for (axis, status) in [("27100000", 0), ("2610000", 1)] {
        let options = ["--axis", axis, "--node-rate", "-1724", "--perigee-rate", "2834"];
        let told = format!("{warning} {axis} metres disagree with Kepler's third law");
        folder
            .run(words("label", &options))
            .fails(status)
            .tells(&[&told, "for this mean motion 26,100 km"]);
    }
    assert!(!label(&folder).stderr.contains("warning"));
    // Of lines that are not read nothing is known.
    folder.write("elements", set(ONE, &with(TWO, 9, "x")));
    assert!(!label(&folder).stderr.contains("warning"));
}

#[track_caller]
fn malformed(elements: impl AsRef<[u8]>, verdict: &str, told: &[&str]) {
    not_taken(elements, &OPTIONS, &format!("malformed {verdict}"), told);
}

#[test]
fn files_that_are_not_two_lines() {
    let further = "a further set stands here, and which one is meant is not guessed: keep one set in the file";
    let behind = "only a name may stand ahead of the two lines, and nothing behind them";
    let missing = "the second of the two lines is missing: the file ends before it";
    let both = "the two lines are missing: the file ends before them";
    let text = set(ONE, TWO);
    for (text, line, what, found) in [
        (format!("{text}{text}"), 3, further, "found \"1 14129U"),
        (format!("{NAME}\n{text}\nOSCAR 11\n{text}"), 5, further, "found \"OSCAR 11\""),
        (format!("{text}# a remark\n"), 3, behind, "found \"# a remark\""),
        (format!("{NAME}\n{text}x"), 4, behind, "found \"x\""),
        (format!("{ONE}\n"), 2, missing, "found the end of the file"),
        (format!("{NAME}\n{ONE}"), 3, missing, "found the end of the file"),
        (String::new(), 1, both, "the file is empty"),
        (
            format!("{NAME}\n"),
            1,
            "the two lines are missing: one begins with \"1 \", the other with \"2 \"",
            "found \"OSCAR 10\"",
        ),
        (
            format!("{text}{}", "\n".repeat(70_000)),
            1,
            "the file has more than 65,535 bytes: it is to have two lines, or a name and two lines",
            "found \"1 14129U",
        ),
    ] {
        malformed(
            text,
            &format!("line {line}: {what}"),
            &[&format!("yurdelmiz: elements, line {line}: {what}; {found}")],
        );
    }
}

#[test]
fn one_kind_in_place_of_the_other() {
    let what = "this is a line of an elements file, which has its axis and rates: leave out --axis, --node-rate and \
                --perigee-rate";
    malformed(elements(), &format!("line 1: {what}"), &["found \"eccentricity 6100000\"\n"]);
    malformed(
        EXAMPLE,
        &format!("line 4: {what}"),
        &["yurdelmiz: elements, line 4: this is a line of"],
    );
    let due =
        "eccentricity, one space and a number are due here: each element stands once, in its order";
    for text in [
        set(ONE, TWO),
        set(ONE, TWO).replace('\n', "\r\n"),
        format!("{NAME}\n{ONE}\n{}", &TWO[..60]),
    ] {
        not_taken(
            text,
            &[],
            &format!("malformed line 1: {due}"),
            &["; it looks like two-line elements, which need --axis, --node-rate and --perigee-rate\n"],
        );
    }
    // The telemetry in their place.
    let folder = folder(set(ONE, TWO));
    let order = [&["label"][..], &OPTIONS, &["telemetry", "elements", "out"]].concat();
    folder
        .run(order)
        .fails(1)
        .tells(&["is it the telemetry? The order is ELEMENTS TELEMETRY LABELS"]);
}

/// An epoch that is written as a year and a day is not taken for seconds of another clock.
#[test]
fn a_record_that_is_too_far() {
    let folder = folder(set(&with(ONE, 19, "05"), TWO));
    let run = label(&folder);
    assert!(run.stdout.starts_with("refused 8 at 0: "), "{run:?}");
    run.fails(1).tells(&["before the epoch, 2005-08-12 01:45:00: label it with elements of an epoch within 366 days\n"]);
    assert!(!run.stderr.contains("1970"), "{}", run.stderr);
}
