//! `label ELEMENTS - LABELS`: standard input labelled as it comes, in pieces of any size, slow ones too; refusals,
//! which end the command at once; and what stays of `-` elsewhere.

mod common;

use std::fs::{self, File, OpenOptions};
use std::io::Write;
use std::os::unix::process::CommandExt;
use std::path::Path;
use std::process::{Child, Stdio};
use std::thread;
use std::time::{Duration, Instant};

use common::{changed, Folder, Run, LABEL, LABELLED, LABELS, TELEMETRY};

const WORDS: [&str; 4] = ["label", "elements", "-", "out"];

const INT: i32 = 2;
const TERM: i32 = 15;
const CONT: i32 = 18;
const STOP: i32 = 19;

const DEFAULT: usize = 0;

extern "C" {
    fn kill(process: i32, signal: i32) -> i32;
    fn signal(number: i32, handler: usize) -> usize;
}

fn send(child: &Child, signal: i32) {
    // SAFETY: numbers only; the process is a child that was not waited for yet.
    assert_eq!(unsafe { kill(child.id() as i32, signal) }, 0);
}

/// The command with a pipe on its standard input, and with no signal ignored, as a shell has what runs beside it
/// ignore INT.
fn start(folder: &Folder) -> Child {
    let mut command = folder.command(WORDS);
    // SAFETY: `signal` may be called between fork and exec.
    unsafe {
        command.pre_exec(|| {
            for number in [INT, TERM] {
                signal(number, DEFAULT);
            }
            Ok(())
        });
    }
    command.stdin(Stdio::piped()).stdout(Stdio::piped()).stderr(Stdio::piped()).spawn().unwrap()
}

/// Writes a piece, of which it does not matter whether the command still takes it, and waits a while.
fn feed(child: &mut Child, piece: &[u8]) {
    let _ = child.stdin.as_mut().unwrap().write_all(piece);
    thread::sleep(Duration::from_millis(30));
}

/// Ends the input, and the run.
fn end(child: Child) -> Run {
    Run::of(child.wait_with_output().unwrap())
}

/// The run that these pieces give, with a while between them.
fn fed<'a>(folder: &Folder, pieces: impl IntoIterator<Item = &'a [u8]>) -> Run {
    let mut child = start(folder);
    for piece in pieces {
        feed(&mut child, piece);
    }
    end(child)
}

/// The run of a command that ends while its input does not: in ten seconds, or the test fails.
#[track_caller]
fn ends_by_itself(mut child: Child) -> Run {
    let input = child.stdin.take();
    let began = Instant::now();
    while child.try_wait().unwrap().is_none() {
        if began.elapsed() > Duration::from_secs(10) {
            child.kill().unwrap();
            panic!("the command waits for more");
        }
        thread::sleep(Duration::from_millis(2));
    }
    let run = end(child);
    drop(input);
    run
}

/// The run with a file on standard input.
fn redirected(folder: &Folder, words: &[&str], input: impl AsRef<Path>) -> Run {
    let input = File::open(folder.path(input)).unwrap();
    Run::of(folder.command(words).stdin(input).output().unwrap())
}

/// A record with this time.
fn record(time: i64) -> Vec<u8> {
    [&time.to_le_bytes()[..], &14.0f32.to_le_bytes(), &0.5f32.to_le_bytes()].concat()
}

/// The example with another time in a record.
fn with_time(number: usize, time: i64) -> Vec<u8> {
    let mut telemetry = TELEMETRY.to_vec();
    telemetry[16 * number..][..8].copy_from_slice(&time.to_le_bytes());
    telemetry
}

/// The same file, line and report of the elements as from a file.
#[test]
fn the_example_in_pieces() {
    let folder = Folder::with_example();
    let from_file = folder.label();
    from_file.is(0, LABELLED);
    for size in [1, 15, 16, 17, 100, 4_095, 16_384] {
        fs::remove_file(folder.path("out")).unwrap();
        let mut child = start(&folder);
        let mut input = child.stdin.take().unwrap();
        for piece in TELEMETRY.chunks(size) {
            input.write_all(piece).unwrap();
        }
        drop(input);
        let run = end(child);
        run.is(0, LABELLED);
        assert_eq!(run.stderr, from_file.stderr);
        assert_eq!(folder.read("out"), LABELS, "pieces of {size} bytes");
        assert_eq!(folder.names(), ["elements", "out", "telemetry"]);
    }
    fs::remove_file(folder.path("out")).unwrap();
    redirected(&folder, &WORDS, "telemetry").is(0, LABELLED);
    assert_eq!(folder.read("out"), LABELS);
}

/// What was read before is not read again.
#[test]
fn the_rest_of_a_file() {
    let folder = Folder::with_example();
    let script = "{ dd bs=16 count=480 of=first 2>dd; \"$@\"; } <telemetry";
    folder.shell(script, &WORDS).fails(0);
    folder.write("telemetry", &TELEMETRY[16 * 480..]);
    let streamed = folder.read("out");
    folder.label().fails(0);
    assert_eq!(streamed, folder.read("out"));
    assert_eq!(folder.read("first"), TELEMETRY[..16 * 480]);
}

/// A stream without records is a day without labels.
#[test]
fn nothing_comes() {
    let folder = Folder::with_example();
    folder.run(WORDS).is(0, "labelled 0 training 0 test 0\n");
    let streamed = folder.read("out");
    folder.write("telemetry", "");
    folder.label().fails(0);
    assert_eq!(streamed, folder.read("out"));
    fed(&folder, [&[][..], &[]]).is(0, "labelled 0 training 0 test 0\n");
}

/// The labels are there when the stream has ended, and not before; nor is anything else.
#[test]
fn a_slow_writer() {
    let old = b"old".to_vec();
    for before in [None, Some(&old)] {
        let folder = Folder::with_example();
        if let Some(old) = before {
            folder.write("out", old);
        }
        let names = folder.names();
        let mut child = start(&folder);
        let cuts = [0, 5, 16, 33, 7_000, 15_343, 15_360];
        for cut in cuts.windows(2) {
            feed(&mut child, &TELEMETRY[cut[0]..cut[1]]);
            assert_eq!(child.try_wait().unwrap(), None, "it ends before its input");
            assert_eq!(folder.names(), names);
            assert_eq!(fs::read(folder.path("out")).ok().as_ref(), before);
        }
        end(child).is(0, LABELLED);
        assert_eq!(folder.read("out"), LABELS);
        assert_eq!(folder.names(), ["elements", "out", "telemetry"]);
    }
}

/// A refused stream, which ends the command though more may come; over an output, which stays.
#[track_caller]
fn refused(pieces: &[&[u8]], verdict: &str, told: &[&str]) {
    let folder = Folder::with_example();
    folder.write("out", "kept");
    let mut child = start(&folder);
    for piece in pieces {
        feed(&mut child, piece);
    }
    let run = ends_by_itself(child);
    assert!(run.stdout.starts_with(&format!("refused {verdict}: ")), "{run:?}");
    assert_eq!(run.stdout.lines().count(), 1);
    run.fails(1).tells(told);
    assert!(run.stderr.starts_with("eccentricity 0.6100000\n"), "{}", run.stderr);
    assert_eq!(folder.read("out"), b"kept");
    assert_eq!(folder.names(), ["elements", "out", "telemetry"]);
}

/// The record and its time, whole in a read or split anywhere over two or three.
#[test]
fn records() {
    let late = with_time(3, 0);
    let told = [
        "yurdelmiz: standard input, record 3 (from 0, at byte 48): the record's time, 1989-12-31 00:00:00, is \
         1,601 days 22:15:00 after the epoch, 1985-08-12 01:45:00: label it with elements of an epoch within \
         366 days\n",
    ];
    refused(&[&late[..100]], "8 at 3", &told);
    for cut in [48, 49, 52, 56, 63] {
        refused(&[&late[..cut], &late[cut..64]], "8 at 3", &told);
    }
    refused(&[&late[..51], &late[51..55], &late[55..500]], "8 at 3", &told);
    let out = with_time(700, i64::MAX);
    refused(
        &[&out[..10_001], &out[10_001..11_205], &out[11_205..11_300]],
        "8 at 700",
        &[
            "standard input, record 700 (from 0, at byte 11200): the record's time is 9223372036854775807 \
             seconds from 1989-12-31 00:00:00, outside",
        ],
    );
    let unix = with_time(2, 492_659_100);
    refused(&[&unix[..40], &unix[40..48]], "8 at 2", &["as Unix does, it is 1985-08-12 01:45:00"]);
}

/// A 1,025th record, at once and behind 1,024 that came before.
#[test]
fn too_many_records() {
    let told =
        ["standard input: a 1,025th record came, and a day has at most 1,024: label it in parts\n"];
    let day = record(-138_406_500).repeat(1_025);
    refused(&[&day], "10 at 0", &told);
    refused(&[&day[..16_384], &day[16_384..]], "10 at 0", &told);
    refused(&[&day[..16_395], &day[16_395..16_399], &day[16_399..]], "10 at 0", &told);
    let folder = Folder::with_example();
    fed(&folder, [&day[..16_000], &day[16_000..16_384]]).fails(0);
    redirected(&folder, &WORDS, "/dev/zero").fails(1).tells(&told);
}

#[test]
fn an_end_within_a_record() {
    for (length, told) in [
        (1, "it ended within record 0 (from 0, at byte 0), after 1 of its 16 bytes: is it cut"),
        (15, "it ended within record 0 (from 0, at byte 0), after 15 of its 16 bytes"),
        (53, "it ended within record 3 (from 0, at byte 48), after 5 of its 16 bytes"),
    ] {
        let folder = Folder::with_example();
        let run = fed(&folder, [&TELEMETRY[..length / 2], &TELEMETRY[length / 2..length]]);
        assert!(run.stdout.starts_with("refused 10 at 0: "), "{run:?}");
        run.fails(1).tells(&[&format!("yurdelmiz: standard input: {told}")]);
        assert!(!folder.has("out"));
    }
    let day = record(-138_406_500).repeat(1_025);
    let run = fed(&Folder::with_example(), [&day[..16_399]]);
    run.fails(1)
        .tells(&["it ended within record 1024 (from 0, at byte 16384), after 15 of its 16"]);
}

#[test]
fn text_and_label_files() {
    let csv = "time,volts,amperes\n1985-08-29T13:45:00Z,14,1\n";
    let told = "CSV is read from a file, or from /dev/stdin with --csv";
    let folder = Folder::with_example();
    for (text, verdict) in
        [(&csv[..10], "10 at 0"), (csv, "8 at 0"), (&csv.repeat(1_000), "10 at 0")]
    {
        let run = fed(&folder, [text.as_bytes()]);
        assert!(run.stdout.starts_with(&format!("refused {verdict}: ")), "{run:?}");
        run.fails(1).tells(&["looks like text", told]);
    }
    // What it says is so.
    folder.write("day", "time,volts,amperes\n1985-08-29T13:45:00Z,14,1\n");
    let words = ["label", "--csv", "elements", "/dev/stdin", "out"];
    redirected(&folder, &words, "day").is(0, "labelled 1 training 1 test 0\n");
    fs::remove_file(folder.path("out")).unwrap();
    let order = "label file: the order is ELEMENTS TELEMETRY LABELS";
    for labels in [LABELS.to_vec(), common::label_file(&[LABEL; 2])] {
        folder.write("labels", labels);
        redirected(&folder, &WORDS, "labels").fails(1).tells(&["standard input", order]);
    }
    assert!(!folder.has("out"));
}

/// Elements that are refused or malformed, and an output that cannot be: nothing is read of standard input.
#[test]
fn before_it_is_read() {
    let folder = Folder::with_example();
    folder.write("refused", changed("eccentricity 6100000", "eccentricity 9000001"));
    folder.write("malformed", changed("eccentricity 6100000", "eccentricity 0.61"));
    let epoch = "elements, line 11: epoch 3476476800 is 2100-03-01 00:00:00, outside 1900 March 1";
    folder.write("late", changed("epoch -138406500", "epoch 3476476800"));
    for (words, status, stdout, told) in [
        (
            ["refused", "out"],
            1,
            "refused 1 at 0: the eccentricity is above 0.9\n",
            "refused, line 1: the eccentricity is above 0.9: eccentricity 9000001 is 0.9000001",
        ),
        (
            ["late", "out"],
            1,
            "refused 8 at 0: the time, or the epoch, is not within 1900 March 1 to 2100 February 28, or they \
             are over 366 days apart, or over 30 where the mean motion's derivative is not 0\n",
            &epoch.replace("elements", "late"),
        ),
        (
            ["malformed", "out"],
            1,
            "malformed line 1: eccentricity has a decimal point: write a whole number, in units of 10^-7\n",
            "malformed, line 1: eccentricity has a decimal point",
        ),
        (["none", "out"], 3, "", "none: cannot be read: No such file"),
        (["elements", "none/out"], 3, "", "none/out: cannot be written: the folder none"),
        (["elements", "out.csv"], 2, "", "label: LABELS would be out.csv"),
        (
            ["elements", "telemetry"],
            2,
            "",
            "telemetry, which is /dev/stdin, is read, and cannot be written as well",
        ),
        (["elements", "elements"], 2, "", "elements is read, and cannot be written as well"),
    ] {
        let words = ["label", words[0], "-", words[1]];
        let script = "{ \"$@\"; status=$?; cat >rest; exit $status; } <telemetry";
        folder.shell(script, &words).is(status, stdout).tells(&[told]);
        assert_eq!(folder.read("rest"), TELEMETRY, "{words:?}");
        assert!(!folder.has("out"));
        // Nor is it waited for.
        if words[3] != "telemetry" {
            let mut command = folder.command(words);
            command.stdin(Stdio::piped()).stdout(Stdio::piped()).stderr(Stdio::piped());
            ends_by_itself(command.spawn().unwrap()).is(status, stdout).tells(&[told]);
        }
    }
    assert_eq!(folder.read("telemetry"), TELEMETRY);
}

/// Told as a file is that cannot be read.
#[test]
fn what_cannot_be_read() {
    let folder = Folder::with_example();
    folder.write("out", "kept");
    folder
        .shell("\"$@\" <&-", &WORDS)
        .is(3, "")
        .tells(&["yurdelmiz: standard input: cannot be read: it is closed\n"]);
    let folder_read = "yurdelmiz: standard input: cannot be read: Is a directory\n";
    redirected(&folder, &WORDS, ".").is(3, "").tells(&[folder_read]);
    let written = OpenOptions::new().append(true).open(folder.path("telemetry")).unwrap();
    let run = Run::of(folder.command(WORDS).stdin(written).output().unwrap());
    run.is(3, "").tells(&["yurdelmiz: standard input: cannot be read: Bad file descriptor\n"]);
    assert_eq!(folder.read("out"), b"kept");
    assert_eq!(folder.names(), ["elements", "out", "telemetry"]);
}

/// CSV is no stream; and a standard output that fails is told as ever.
#[test]
fn mistakes() {
    let folder = Folder::with_example();
    for words in [["--csv", "elements", "-", "out"], ["elements", "-", "out", "--csv"]] {
        let run = redirected(&folder, &[&["label"], &words[..]].concat(), "telemetry");
        run.is(2, "").tells(&[
            "yurdelmiz: label: --csv takes no -: name a file, or /dev/stdin\nusage: yurdelmiz label ",
        ]);
    }
    assert!(!folder.has("out"));
    folder
        .shell("\"$@\" <telemetry >/dev/full", &WORDS)
        .is(3, "")
        .tells(&["out is written, but standard output: No space left on device"]);
    assert_eq!(folder.read("out"), LABELS);
}

/// A file called `-` is `./-`; in every other place `-` is a file.
#[test]
fn files_called_so() {
    let folder = Folder::with_example();
    folder.write("-", TELEMETRY);
    folder.run(["label", "elements", "./-", "out"]).is(0, LABELLED);
    folder.run(["label", "elements", "-", "out"]).is(0, "labelled 0 training 0 test 0\n");
    folder.run(["label", "elements", "--", "-", "out"]).is(0, "labelled 0 training 0 test 0\n");
    folder.run(["label", "--", "elements", "-/", "out"]).fails(3).tells(&["-/: cannot be read"]);
    folder.run(["add", "elements", "-", "out"]).is(0, &format!("added 960 {LABELLED}"));
    assert_eq!(folder.read("out"), LABELS);
    // The elements, and the labels.
    folder.write("-", common::elements());
    redirected(&folder, &["label", "-", "-", "out"], "telemetry").is(0, LABELLED);
    fs::remove_file(folder.path("-")).unwrap();
    redirected(&folder, &["label", "elements", "-", "-"], "telemetry").is(0, LABELLED);
    assert_eq!(folder.read("-"), LABELS);
    folder.run(["list", "-"]).fails(0);
    folder.run(["dark-test", "-"]).is(0, "-\t7\n");
    folder.run(["salvage", "-", "out"]).is(0, "kept 960 dropped 24\n");
    fs::remove_file(folder.path("-")).unwrap();
    folder.run(["list", "-"]).fails(3).tells(&["-: cannot be read: No such file"]);
    folder.run(["add", "elements", "-", "out"]).fails(3).tells(&["-: cannot be read: No such"]);
}

/// Ended by a signal while it waits for more: the output is as it was, and nothing is left.
#[test]
fn signals() {
    for signal in [INT, TERM] {
        let folder = Folder::with_example();
        folder.write("out", "kept");
        let mut child = start(&folder);
        feed(&mut child, &TELEMETRY[..1_000]);
        send(&child, signal);
        let run = ends_by_itself(child);
        assert_eq!((run.status, &*run.stdout), (None, ""), "{}", run.stderr);
        assert_eq!(folder.read("out"), b"kept");
        assert_eq!(folder.names(), ["elements", "out", "telemetry"]);
    }
}

/// Stopped within a read and gone on with.
#[test]
fn stopped_and_gone_on() {
    let folder = Folder::with_example();
    let mut child = start(&folder);
    for piece in TELEMETRY.chunks(4_001) {
        feed(&mut child, piece);
        send(&child, STOP);
        thread::sleep(Duration::from_millis(5));
        send(&child, CONT);
    }
    end(child).is(0, LABELLED);
    assert_eq!(folder.read("out"), LABELS);
}
