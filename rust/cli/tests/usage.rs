//! Mistakes in the arguments are named first, with status 2; help and the version.

mod common;

use common::Folder;

#[track_caller]
fn mistake(words: &[&str], told: &str) {
    let folder = Folder::with_example();
    let run = folder.run(words);
    run.is(2, "");
    let mut lines = run.stderr.lines();
    assert_eq!(lines.next(), Some(&*format!("yurdelmiz: {told}")));
    assert!(lines.next().unwrap().starts_with("usage: yurdelmiz "), "{}", run.stderr);
    assert_eq!(folder.names(), ["elements", "telemetry"]);
}

#[test]
fn mistakes() {
    mistake(&[], "no command is given");
    mistake(&["nonsense"], "there is no command 'nonsense'");
    mistake(&["lable", "a", "b", "c"], "there is no command 'lable': did you mean label?");
    mistake(&["--nonsense"], "there is no option '--nonsense'");
    mistake(&["--cvs"], "there is no option '--cvs'");
    mistake(&["label"], "label: ELEMENTS and TELEMETRY and LABELS are missing");
    mistake(&["label", "elements", "telemetry"], "label: LABELS is missing");
    mistake(&["label", "a", "b", "c", "d"], "label: 'd' is one word too many");
    mistake(&["label", "elements", "", "out"], "label: TELEMETRY is empty");
    mistake(&["label", "--cvs", "a", "b", "c"], "label has no option '--cvs': did you mean --csv?");
    mistake(
        &["label", "--nonsense", "a", "b", "c"],
        "label has no option '--nonsense': a file whose name begins with - stands after --",
    );
    mistake(&["label", "--csv=yes", "a", "b", "c"], "--csv takes no value");
    mistake(&["label", "--csv", "--csv", "a", "b", "c"], "--csv is given twice");
    mistake(&["add"], "add: ELEMENTS and TELEMETRY and LABELS are missing");
    mistake(&["add", "elements", "telemetry"], "add: LABELS is missing");
    mistake(&["add", "a", "b", "c", "d"], "add: 'd' is one word too many");
    mistake(
        &["add", "--json", "a", "b", "c"],
        "add has no option '--json': a file whose name begins with - stands after --",
    );
    mistake(&["ad", "a", "b", "c"], "there is no command 'ad': did you mean add?");
    mistake(&["list"], "list: LABELS is missing");
    mistake(&["list", "a", "b"], "list: 'b' is one word too many");
    mistake(&["list", "--csv", "--json", "a"], "list: --csv and --json are given together");
    mistake(&["dark-test"], "dark-test: FILE is missing");
    mistake(&["dark-test", "--"], "dark-test: FILE is missing");
    mistake(&["dark-test", ""], "dark-test: FILE is empty");
    mistake(&["dark-test", "elements", "none", ""], "dark-test: FILE is empty");
    mistake(
        &["dark-test", "elements", "--csv"],
        "dark-test has no option '--csv': a file whose name begins with - stands after --",
    );
    mistake(&["dark_test", "a"], "there is no command 'dark_test': did you mean dark-test?");
    mistake(&["scale"], "scale: FILE is missing");
    mistake(&["scale", "elements", ""], "scale: FILE is empty");
    mistake(
        &["scale", "--json", "elements"],
        "scale has no option '--json': a file whose name begins with - stands after --",
    );
    mistake(&["scales", "a"], "there is no command 'scales': did you mean scale?");
    mistake(&["salvage"], "salvage: DAMAGED and LABELS are missing");
    mistake(&["salvage", "elements"], "salvage: LABELS is missing");
    mistake(&["salvage", "elements", ""], "salvage: LABELS is empty");
    mistake(&["salvage", "a", "b", "c"], "salvage: 'c' is one word too many");
    mistake(&["savlage", "a", "b"], "there is no command 'savlage': did you mean salvage?");
    mistake(&["sets"], "sets: put, find or list is missing");
    mistake(&["set", "list", "a"], "there is no command 'set': did you mean sets?");
    mistake(&["sets", "nonsense"], "there is no command 'sets nonsense'");
    mistake(&["sets", "--nonsense"], "there is no command 'sets --nonsense'");
    mistake(&["sets", "lst", "a"], "there is no command 'sets lst': did you mean sets list?");
    mistake(&["sets", "put"], "sets put: TABLE and ELEMENTS are missing");
    mistake(&["sets", "put", "a"], "sets put: ELEMENTS is missing");
    mistake(&["sets", "put", "", "elements"], "sets put: TABLE is empty");
    mistake(&["sets", "put", "a", "b", "c"], "sets put: 'c' is one word too many");
    mistake(
        &["sets", "put", "--csv", "a", "elements"],
        "sets put has no option '--csv': a file whose name begins with - stands after --",
    );
    mistake(&["sets", "list"], "sets list: TABLE is missing");
    mistake(&["sets", "list", "a", "b"], "sets list: 'b' is one word too many");
    mistake(&["sets", "find", "a"], "sets find: FORECAST and TIME are missing");
    mistake(&["sets", "find", "a", "b", ""], "sets find: TIME is empty");
    mistake(&["sets", "find", "a", "b", "0", "1"], "sets find: '1' is one word too many");
    mistake(&["sets", "find", "a", "b", "0", "-o"], "-o is given without its FILE");
    mistake(&["sets", "find", "a", "b", "0", "-o", ""], "sets find: FILE is empty");
    mistake(&["sets", "find", "a", "b", "0", "-o", "c", "-o=d"], "-o is given twice");
    for words in [["-5", "a", "b"], ["a", "-5", "b"]] {
        mistake(
            &[&["sets", "find"][..], &words].concat(),
            "sets find has no option '-5': a file whose name begins with - stands after --",
        );
    }
    mistake(&["plot", "a"], "plot: OUT.svg is missing");
    mistake(&["plot", "a", "b.svg", "--satellite"], "--satellite is given without its NAME");
    mistake(&["help", "nonsense"], "there is no command 'nonsense'");
    mistake(&["help", "label", "list"], "help: 'list' is one word too many");
    mistake(&["help", "sets", "nonsense"], "there is no command 'sets nonsense'");
    mistake(&["help", "sets", "put", "list"], "help: 'list' is one word too many");
    mistake(
        &["plot", "elements", "out.png"],
        "plot: out.png does not end in .svg, and the picture is SVG: the order is LABELS OUT.svg",
    );
    mistake(
        &["plot", "out.svg", "elements"],
        "plot: elements does not end in .svg, and the picture is SVG: the order is LABELS OUT.svg",
    );
    let inputs = ["elements", "telemetry"];
    for (command, inputs) in [("label", &inputs[..]), ("add", &inputs), ("salvage", &inputs[..1])] {
        for ending in ["csv", "JSON", "svg"] {
            mistake(
                &[&[command], inputs, &[&format!("out.{ending}")]].concat(),
                &format!(
                    "{command}: LABELS would be out.{ending}, and a label file is none of that kind; list \
                     --csv, list --json and plot make those from it"
                ),
            );
        }
    }
}

/// A time of `sets find` that is none.
#[test]
fn times() {
    for (time, told) in [
        ("x", "is not of the form 1985-08-29T13:45:00Z, nor whole seconds"),
        ("-5s", "is not of the form 1985-08-29T13:45:00Z, nor whole seconds"),
        ("-5.5", "has a fraction of a second: write whole seconds"),
        ("1985-08-29", "has no time of day: write it to the second"),
        ("1985-08-29T13:45:00+01:00", "is in another zone, +01:00: write it in UTC"),
        ("1985-02-29T13:45:00Z", "is no date of the calendar or no time of day"),
        ("9223372036854775808", "does not fit 64 bits"),
        ("-9223372036854775809", "does not fit 64 bits"),
    ] {
        // Ahead of what is asked of the files.
        mistake(
            &["sets", "find", "none", "none", time, "-o", "none/none"],
            &format!("TIME '{time}' {told}"),
        );
    }
}

/// The axis and the rates are given together, as whole numbers.
#[test]
fn axis_and_rates() {
    let need = "two-line elements need --axis, --node-rate and --perigee-rate";
    for command in ["label", "add"] {
        let given = |options: &[&str], told: &str| {
            let words = [&[command][..], options, &["elements", "telemetry", "out"]].concat();
            mistake(&words, told);
        };
        for (options, missing) in [
            (&["--axis", "1"][..], "--node-rate and --perigee-rate are missing"),
            (&["--node-rate=-1"], "--axis and --perigee-rate are missing"),
            (&["--perigee-rate", "-1", "--axis=1"], "--node-rate is missing"),
            (&["--node-rate", "x", "--perigee-rate", "1.5"], "--axis is missing"),
        ] {
            given(options, &format!("{command}: {missing}: {need}"));
        }
        let rate = "in units of 10^-4 degree a day";
        for (axis, node, perigee, told) in [
            (
                "26100.0",
                "-1724",
                "2834",
                "--axis '26100.0' has a decimal point: write a whole number, in metres; 26100.0 metres are written \
                 26100, 26100.0 km 26100000"
                    .to_owned(),
            ),
            (
                "26100000",
                "-0.1724",
                "0.2834",
                format!(
                    "--node-rate '-0.1724' has a decimal point: write a whole number, {rate}; -0.1724 degrees a day \
                     are written -1724"
                ),
            ),
            (
                "26100000",
                "-1724",
                "+2834",
                format!(
                    "--perigee-rate '+2834' is not a whole number, {rate}: digits, with a minus ahead of them or not"
                ),
            ),
            (
                "-26100000",
                "-1724",
                "2834",
                "--axis '-26100000' is not a whole number, in metres: digits alone".to_owned(),
            ),
            ("4294967296", "0", "0", "--axis '4294967296' is too large, in metres".to_owned()),
            ("0", "2147483648", "0", format!("--node-rate '2147483648' is too large, {rate}")),
            ("0", "0", "-2147483649", format!("--perigee-rate '-2147483649' is too large, {rate}")),
        ] {
            given(&["--axis", axis, "--node-rate", node, "--perigee-rate", perigee], &told);
            let joined = [("axis", axis), ("node-rate", node), ("perigee-rate", perigee)]
                .map(|(name, value)| format!("--{name}={value}"));
            given(&joined.each_ref().map(|word| &**word), &told);
        }
        given(&["--axis", "--node-rate", "-1724"], "--axis is given without its METRES");
        given(&["--axis", "1", "--axis", "2"], "--axis is given twice");
        mistake(&[command, "a", "b", "c", "--node-rate"], "--node-rate is given without its N");
    }
    mistake(
        &["sets", "put", "--axis", "1", "none", "none"],
        &format!("sets put: --node-rate and --perigee-rate are missing: {need}"),
    );
    mistake(
        &["label", "--axes", "1", "a", "b", "c"],
        "label has no option '--axes': did you mean --axis?",
    );
    // Ahead of what is asked of the files.
    mistake(
        &["label", "--axis", "1", "none", "none", "out.csv"],
        &format!("label: --node-rate and --perigee-rate are missing: {need}"),
    );
}

/// Arguments are looked at before any file is.
#[test]
fn before_a_file_is_read() {
    mistake(
        &["label", "none", "none", "out.csv"],
        "label: LABELS would be out.csv, and a label file is \
        none of that kind; list --csv, list --json and plot make those from it",
    );
    mistake(
        &["plot", "none", "out"],
        "plot: out does not end in .svg, and the picture is SVG: the order is LABELS OUT.svg",
    );
}

#[test]
fn a_name_that_begins_with_a_dash() {
    let folder = Folder::with_example();
    folder.run(["label", "--", "elements", "telemetry", "--csv"]).fails(0);
    folder.run(["list", "--", "--csv"]).fails(0);
    folder.run(["list", "./--csv"]).fails(0);
    assert!(folder.has("--csv"));
}

#[test]
fn help() {
    let folder = Folder::new();
    let general = folder.run(["help"]);
    general.fails(0);
    assert!(general.stdout.starts_with("usage: yurdelmiz label "), "{}", general.stdout);
    for words in [&["--help"][..], &["-h"], &["help", "help"], &["help", "--help"]] {
        folder.run(words).is(0, &general.stdout);
    }
    for name in [
        "label",
        "add",
        "list",
        "dark-test",
        "scale",
        "salvage",
        "sets put",
        "sets find",
        "sets list",
        "plot",
    ] {
        let words: Vec<&str> = name.split(' ').collect();
        let with = |more: &[&'static str]| folder.run([&words, more].concat());
        let text = folder.run([&["help"], &words[..]].concat());
        text.fails(0);
        let usage = text.stdout.lines().next().unwrap();
        assert!(usage.starts_with(&format!("usage: yurdelmiz {name} ")), "{usage}");
        // The usage is one of the general ones, and of its family's.
        let line = usage.strip_prefix("usage: ").unwrap();
        assert!(general.stdout.contains(line), "{line}");
        assert!(folder.run(["help", words[0]]).stdout.contains(line), "{line}");
        for more in [&["--help"][..], &["-h"], &["a", "b", "c", "d", "--help"]] {
            with(more).is(0, &text.stdout);
        }
        with(&["a", "--nonsense", "--help"]).fails(2);
    }
    let family = folder.run(["help", "sets"]);
    assert!(family.stdout.starts_with("usage: yurdelmiz sets put "), "{}", family.stdout);
    for words in [&["sets", "--help"][..], &["sets", "-h"], &["sets", "--help", "put"]] {
        folder.run(words).is(0, &family.stdout);
    }
}

/// The project's version, and the kit's line or that it is not known.
#[test]
fn version() {
    let folder = Folder::new();
    let run = folder.run(["--version"]);
    let (project, kit) = run.stdout.split_once('\n').unwrap();
    assert_eq!(project, concat!("yurdelmiz ", env!("CARGO_PKG_VERSION")));
    assert!(kit.starts_with("proved with ") && kit.len() > 13, "{kit}");
    folder.run(["-V"]).is(0, &run.stdout);
}
