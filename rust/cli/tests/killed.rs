//! `label` and `add` killed at random moments: the output is the old file or the new one, whole, and nothing that
//! is left is in the way of the next run.

mod common;

use std::fs;
use std::process::{Child, Stdio};
use std::thread;
use std::time::{Duration, Instant};

use common::{Folder, LABELLED, LABELS, TELEMETRY};

const INT: i32 = 2;
const KILL: i32 = 9;
const TERM: i32 = 15;
const CONT: i32 = 18;
const STOP: i32 = 19;

extern "C" {
    fn kill(process: i32, signal: i32) -> i32;
}

fn send(child: &Child, signal: i32) {
    // SAFETY: numbers only; the process is a child that was not waited for yet.
    unsafe { kill(child.id() as i32, signal) };
}

/// Numbers that look random, the same in every run.
struct Random(u64);

impl Random {
    fn below(&mut self, bound: u64) -> u64 {
        self.0 =
            self.0.wrapping_mul(6_364_136_223_846_793_005).wrapping_add(1_442_695_040_888_963_407);
        (self.0 >> 33) % bound
    }
}

fn start(folder: &Folder) -> Child {
    start_with(folder, "label")
}

fn start_with(folder: &Folder, command: &str) -> Child {
    let mut command = folder.command([command, "elements", "telemetry", "out"]);
    command.stdout(Stdio::null()).stderr(Stdio::null()).spawn().unwrap()
}

/// How long a run takes here, in microseconds.
fn usual_time(folder: &Folder) -> u64 {
    let began = Instant::now();
    for _ in 0..5 {
        start(folder).wait().unwrap();
    }
    began.elapsed().as_micros() as u64 / 5
}

fn temporary(folder: &Folder) -> Vec<String> {
    folder.names().into_iter().filter(|name| name.starts_with(".out.yurdelmiz-")).collect()
}

#[test]
fn a_hundred_times() {
    let folder = Folder::with_example();
    let usual = usual_time(&folder);
    let mut random = Random(1);
    let old = b"old".repeat(1_000);
    for turn in 0..102 {
        let signal = [INT, TERM, KILL][turn % 3];
        if turn % 2 == 0 {
            folder.write("out", &old);
        } else {
            let _ = fs::remove_file(folder.path("out"));
        }
        let left = temporary(&folder);
        let mut child = start(&folder);
        thread::sleep(Duration::from_micros(random.below(usual * 5 / 4)));
        send(&child, signal);
        let status = child.wait().unwrap();
        let now = fs::read(folder.path("out")).ok();
        let whole = now.as_deref() == Some(LABELS);
        let untouched = now.as_deref() == (turn % 2 == 0).then_some(&old[..]);
        assert!(
            whole || untouched,
            "turn {turn}: signal {signal} left {:?} bytes",
            now.map(|it| it.len())
        );
        assert!(whole || !status.success(), "turn {turn}: nothing written, and {status}");
        if signal != KILL {
            assert_eq!(temporary(&folder), left, "turn {turn}: signal {signal}");
        }
    }
    // With all that is left there.
    folder.label().is(0, LABELLED);
    assert_eq!(folder.read("out"), LABELS);
}

/// The labels are those before or those after, and never between.
#[test]
fn adding() {
    let folder = Folder::with_example();
    let (first, rest) = TELEMETRY.split_at(16 * 500);
    folder.write("telemetry", first);
    folder.label().fails(0);
    let old = folder.read("out");
    folder.write("telemetry", rest);
    let usual = usual_time(&folder);
    let mut random = Random(3);
    for turn in 0..60 {
        folder.write("out", &old);
        let signal = [INT, TERM, KILL][turn % 3];
        let left = temporary(&folder);
        let mut child = start_with(&folder, "add");
        thread::sleep(Duration::from_micros(random.below(usual * 5 / 4)));
        send(&child, signal);
        let status = child.wait().unwrap();
        let now = folder.read("out");
        assert!(now == LABELS || now == old, "turn {turn}: signal {signal}: {} bytes", now.len());
        assert!(now == LABELS || !status.success(), "turn {turn}: nothing added, and {status}");
        if signal != KILL {
            assert_eq!(temporary(&folder), left, "turn {turn}: signal {signal}");
        }
    }
    folder.write("out", &old);
    let run = folder.run(["add", "elements", "telemetry", "out"]);
    run.is(0, &format!("added 460 {LABELLED}"));
    assert_eq!(folder.read("out"), LABELS);
}

/// Whether the process stands still, by the third word of its status.
fn stopped(child: &Child) -> bool {
    let status = fs::read_to_string(format!("/proc/{}/stat", child.id())).unwrap_or_default();
    let state = status.rsplit_once(") ").map(|(_, rest)| rest.as_bytes()[0]);
    matches!(state, Some(b'T' | b'Z') | None)
}

/// Stopped while its temporary file is there, then ended: the file goes with it.
#[test]
fn a_signal_removes_the_temporary_file() {
    let folder = Folder::with_example();
    let usual = usual_time(&folder);
    let mut random = Random(2);
    let mut caught = 0;
    for turn in 0..300 {
        if caught == 6 {
            break;
        }
        let signal = [INT, TERM][turn % 2];
        let mut child = start(&folder);
        thread::sleep(Duration::from_micros(random.below(usual * 5 / 4)));
        send(&child, STOP);
        while !stopped(&child) {
            thread::yield_now();
        }
        caught += temporary(&folder).len();
        send(&child, signal);
        send(&child, CONT);
        child.wait().unwrap();
        assert_eq!(
            folder.names(),
            ["elements", "out", "telemetry"],
            "turn {turn}: signal {signal}"
        );
        assert_eq!(folder.read("out"), LABELS);
    }
    println!("stopped {caught} times with a temporary file there");
}

/// Started with INT ignored, as a shell starts what runs beside it: it is not ended by it.
#[test]
fn an_ignored_signal_stays_ignored() {
    let folder = Folder::with_example();
    let words = ["label", "elements", "/dev/stdin", "out"];
    let script = "trap '' INT; { sleep 0.3; cat telemetry; } | \"$@\" & sleep 0.1; \
                  kill -INT $! 2>/dev/null; wait $!";
    folder.shell(script, &words).is(0, LABELLED);
    assert_eq!(folder.read("out"), LABELS);
}
