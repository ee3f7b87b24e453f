//! Times the proved library beside the reference, in one run.
//!
//!     bench [REPEATS]
//!     bench once RECORDS      labels, reads, salvages and scales one day, for a counter of instructions
//!     bench packets RECORDS BYTES     labels one day in packets of so many bytes, for the same
//!     bench kepler ECCENTRICITY SOLUTIONS     solves Kepler's equation, for the same
//!     bench root ROOTS        takes square roots, for the same
//!     bench sets ROWS         finds an element set in a table and puts one into it, for the same
//!
//! Each repeat times both, one after the other, and gives a ratio; printed are the median times,
//! the median ratio, and the least and greatest ratio over the repeats.

mod element_sets;

use std::hint::black_box;
use std::time::{Duration, Instant};

use reference::file::file_bytes;
use reference::label::LABEL_BYTES;
use reference::tail::TAIL_BYTES;

/// How long one timing lasts, about.
const TIMING: Duration = Duration::from_millis(20);

const DAY_RECORDS: usize = 1_024;

/// Oscar-10, from source document 001.
const ELEMENTS: reference::orbit::Elements = reference::orbit::Elements {
    eccentricity: 6_100_000,
    semi_major_axis: 26_100_000,
    inclination: 305_419_896,
    node: 1_445_972_322,
    argument_of_perigee: 478_411_634,
    mean_anomaly: 1_542_609_087,
    mean_motion: 205_890_000,
    node_rate: -1_724,
    perigee_rate: 2_834,
    epoch_revolution: 1_627,
    epoch: -138_406_500,
    half_mean_motion_derivative: 0,
};

const LIBRARY_ELEMENTS: yurdelmiz::Elements = library_elements(&ELEMENTS);

const fn library_elements(elements: &reference::orbit::Elements) -> yurdelmiz::Elements {
    yurdelmiz::Elements {
        eccentricity: elements.eccentricity,
        semi_major_axis: elements.semi_major_axis,
        inclination: elements.inclination,
        node: elements.node,
        argument_of_perigee: elements.argument_of_perigee,
        mean_anomaly: elements.mean_anomaly,
        mean_motion: elements.mean_motion,
        node_rate: elements.node_rate,
        perigee_rate: elements.perigee_rate,
        epoch_revolution: elements.epoch_revolution,
        epoch: elements.epoch,
        half_mean_motion_derivative: elements.half_mean_motion_derivative,
    }
}

/// A day of records, 84 seconds apart.
fn telemetry(records: usize) -> Vec<u8> {
    let mut bytes = Vec::with_capacity(records * 16);
    for record in 0..records {
        let time = ELEMENTS.epoch + 84 * record as i64;
        bytes.extend(time.to_le_bytes());
        bytes.extend((14.0 + record as f32 / 1_000.0).to_le_bytes());
        bytes.extend((0.5 - record as f32 / 2_000.0).to_le_bytes());
    }
    bytes
}

/// Nanoseconds a call takes, over `calls` calls.
fn time(calls: u32, call: &mut dyn FnMut()) -> f64 {
    let start = Instant::now();
    for _ in 0..calls {
        call();
    }
    start.elapsed().as_secs_f64() * 1e9 / f64::from(calls)
}

/// How many calls last about `TIMING`.
fn calls_for(call: &mut dyn FnMut()) -> u32 {
    let mut calls = 1;
    loop {
        let took = time(calls, call) * f64::from(calls);
        if took >= TIMING.as_nanos() as f64 / 4.0 {
            return (f64::from(calls) * TIMING.as_nanos() as f64 / took).ceil() as u32;
        }
        calls *= 2;
    }
}

fn median(values: &mut [f64]) -> f64 {
    values.sort_by(f64::total_cmp);
    let middle = values.len() / 2;
    if values.len() % 2 == 1 {
        values[middle]
    } else {
        (values[middle - 1] + values[middle]) / 2.0
    }
}

/// Median times in nanoseconds, and the ratios' median, least and greatest.
struct Comparison {
    library: f64,
    reference: f64,
    ratio: f64,
    least: f64,
    greatest: f64,
}

fn compare(repeats: usize, library: &mut dyn FnMut(), reference: &mut dyn FnMut()) -> Comparison {
    let (library_calls, reference_calls) = (calls_for(library), calls_for(reference));
    let mut times = (Vec::new(), Vec::new());
    let mut ratios = Vec::new();
    for _ in 0..repeats {
        let of_library = time(library_calls, library);
        let of_reference = time(reference_calls, reference);
        times.0.push(of_library);
        times.1.push(of_reference);
        ratios.push(of_library / of_reference);
    }
    let ratio = median(&mut ratios);
    Comparison {
        library: median(&mut times.0),
        reference: median(&mut times.1),
        ratio,
        least: ratios[0],
        greatest: ratios[ratios.len() - 1],
    }
}

fn print(name: &str, comparison: &Comparison) {
    let Comparison { library, reference, ratio, least, greatest } = comparison;
    println!(
        "{name:<28} {:>10.3} us {:>10.3} us {ratio:>7.2} ({least:.2} to {greatest:.2})",
        library / 1e3,
        reference / 1e3,
    );
}

/// The same for each of so many parts of a call, in nanoseconds.
fn print_share(name: &str, comparison: &Comparison, parts: usize) {
    let Comparison { library, reference, ratio, least, greatest } = comparison;
    println!(
        "{name:<28} {:>10.3} ns {:>10.3} ns {ratio:>7.2} ({least:.2} to {greatest:.2})",
        library / parts as f64,
        reference / parts as f64,
    );
}

/// Records that labelling goes through, a day after a day, so that no branch is foreseen from the
/// same day before.
const STOCK: usize = 16 * DAY_RECORDS;

/// The days of a stock of telemetry, one after another and over again.
struct Days<'a> {
    stock: &'a [u8],
    size: usize,
    next: usize,
}

impl<'a> Days<'a> {
    fn new(stock: &'a [u8], records: usize) -> Self {
        Days { stock, size: records * 16, next: 0 }
    }

    fn day(&mut self) -> &'a [u8] {
        let day = &self.stock[self.next..self.next + self.size];
        self.next = (self.next + self.size) % self.stock.len();
        day
    }
}

fn label(repeats: usize, records: usize) -> Comparison {
    let stock = telemetry(STOCK);
    let mut outputs = [vec![0; file_bytes(records)], vec![0; file_bytes(records)]];
    let [library_output, reference_output] = &mut outputs;
    let (mut library_days, mut reference_days) =
        (Days::new(&stock, records), Days::new(&stock, records));
    let mut library = |day: &[u8]| {
        let counts = yurdelmiz::label_day(&LIBRARY_ELEMENTS, black_box(day), library_output);
        black_box(counts.expect("an accepted day"));
    };
    let mut reference = |day: &[u8]| {
        let counts = reference::file::label_day(&ELEMENTS, black_box(day), reference_output);
        black_box(counts.expect("an accepted day"));
    };
    let comparison = compare(repeats, &mut || library(library_days.day()), &mut || {
        reference(reference_days.day())
    });
    let day = Days::new(&stock, records).day();
    library(day);
    reference(day);
    assert_eq!(outputs[0], outputs[1], "the two label files");
    comparison
}

/// A day from opening to closing, in packets of so many bytes.
fn library_packets(day: &[u8], size: usize, output: &mut [u8]) {
    let mut state = yurdelmiz::Day::open(&LIBRARY_ELEMENTS).expect("accepted elements");
    let mut written = 0;
    for packet in black_box(day).chunks(size) {
        let labels = state.packet(packet, &mut output[written..]).expect("an accepted packet");
        written += labels * LABEL_BYTES;
    }
    black_box(state.close(&mut output[written..]).expect("whole records"));
}

fn reference_packets(day: &[u8], size: usize, output: &mut [u8]) {
    let mut state = reference::packets::Day::open(&ELEMENTS).expect("accepted elements");
    let mut written = 0;
    for packet in black_box(day).chunks(size) {
        let labels = state.packet(packet, &mut output[written..]).expect("an accepted packet");
        written += labels * LABEL_BYTES;
    }
    black_box(state.close(&mut output[written..]).expect("whole records"));
}

/// The longest day in packets.
fn packets(repeats: usize, size: usize) -> Comparison {
    let stock = telemetry(STOCK);
    let mut outputs = [vec![0; file_bytes(DAY_RECORDS)], vec![0; file_bytes(DAY_RECORDS)]];
    let [library_output, reference_output] = &mut outputs;
    let (mut library_days, mut reference_days) =
        (Days::new(&stock, DAY_RECORDS), Days::new(&stock, DAY_RECORDS));
    let comparison = compare(
        repeats,
        &mut || library_packets(library_days.day(), size, library_output),
        &mut || reference_packets(reference_days.day(), size, reference_output),
    );
    let day = Days::new(&stock, DAY_RECORDS).day();
    library_packets(day, size, library_output);
    reference_packets(day, size, reference_output);
    assert_eq!(outputs[0], outputs[1], "the two label files");
    comparison
}

/// A day in packets once by the library and once by the reference: to be run under a counter of instructions.
fn packets_once(records: usize, size: usize) {
    let day = telemetry(records);
    let mut files = [vec![0; file_bytes(records)], vec![0; file_bytes(records)]];
    let [library, reference] = &mut files;
    library_packets(&day, size, library);
    reference_packets(&day, size, reference);
    assert_eq!(files[0], files[1], "the two label files");
}

/// Labels a day, reads it, salvages it without its trailer and takes its scale figures, once by the library and once
/// by the reference: to be run under a counter of instructions.
fn once(records: usize) {
    let day = telemetry(records);
    let mut files = [vec![0; file_bytes(records)], vec![0; file_bytes(records)]];
    let [library, reference] = &mut files;
    black_box(yurdelmiz::label_day(&LIBRARY_ELEMENTS, &day, library).expect("an accepted day"));
    black_box(reference::file::label_day(&ELEMENTS, &day, reference).expect("an accepted day"));
    black_box(yurdelmiz::read(library, library.len()).expect("a sound file"));
    black_box(reference::file::read(reference, reference.len()).expect("a sound file"));
    assert_eq!(files[0], files[1], "the two label files");
    let cut = without_trailer(&files[0]);
    let mut saved = [vec![0; file_bytes(records)], vec![0; file_bytes(records)]];
    let [library, reference] = &mut saved;
    black_box(yurdelmiz::salvage(cut, library).expect("enough room"));
    black_box(reference::salvage::salvage(cut, reference).expect("enough room"));
    assert_eq!(files, saved, "what is salvaged");
    let (library, reference) = (library_figures(&files[0]), reference_figures(&files[0]));
    assert_eq!(library.to_bytes(), reference.to_bytes(), "the scale figures");
}

/// The scale figures of one file.
fn library_figures(file: &[u8]) -> yurdelmiz::Figures {
    let mut figures = yurdelmiz::Figures::default();
    figures.add(black_box(file)).expect("a sound file");
    black_box(figures)
}

fn reference_figures(file: &[u8]) -> reference::scale::Figures {
    let mut figures = reference::scale::Figures::default();
    figures.add(black_box(file), file.len()).expect("a sound file");
    black_box(figures)
}

/// The labels of a file that labelling wrote.
fn without_trailer(file: &[u8]) -> &[u8] {
    &file[..file.len() - file_bytes(0)]
}

/// The longest day's file.
fn longest_file() -> Vec<u8> {
    let mut file = vec![0; file_bytes(DAY_RECORDS)];
    reference::file::label_day(&ELEMENTS, &telemetry(DAY_RECORDS), &mut file)
        .expect("an accepted day");
    file
}

fn read(repeats: usize) -> Comparison {
    let file = longest_file();
    compare(
        repeats,
        &mut || {
            let counts = yurdelmiz::read(black_box(&file), file.len());
            black_box(counts.expect("a sound file"));
        },
        &mut || {
            let read = reference::file::read(black_box(&file), file.len());
            black_box(read.expect("a sound file"));
        },
    )
}

/// The same file by its tail.
fn dark_test(repeats: usize) -> Comparison {
    let file = longest_file();
    let (tail, size) = (&file[file.len() - TAIL_BYTES..], file.len() as u64);
    compare(
        repeats,
        &mut || {
            let figure = yurdelmiz::dark_test(black_box(tail), black_box(size));
            black_box(figure.expect("a sound file"));
        },
        &mut || {
            let figure = reference::tail::dark_test(black_box(tail), black_box(size));
            black_box(figure.expect("a sound file"));
        },
    )
}

/// The same file without its trailer, salvaged.
fn salvage(repeats: usize) -> Comparison {
    let file = longest_file();
    let cut = without_trailer(&file);
    let mut outputs = [vec![0; file.len()], vec![0; file.len()]];
    let [library_output, reference_output] = &mut outputs;
    let comparison = compare(
        repeats,
        &mut || {
            let salvaged = yurdelmiz::salvage(black_box(cut), library_output);
            black_box(salvaged.expect("enough room"));
        },
        &mut || {
            let salvaged = reference::salvage::salvage(black_box(cut), reference_output);
            black_box(salvaged.expect("enough room"));
        },
    );
    assert!(outputs.iter().all(|output| *output == file), "what is salvaged");
    comparison
}

/// The scale figures of the same file, whose labels are all on the training side.
fn scale(repeats: usize) -> Comparison {
    let file = longest_file();
    let comparison = compare(
        repeats,
        &mut || {
            library_figures(&file);
        },
        &mut || {
            reference_figures(&file);
        },
    );
    let figures = library_figures(&file);
    assert_eq!(figures.labels as usize, DAY_RECORDS, "training labels");
    assert_eq!(figures.to_bytes(), reference_figures(&file).to_bytes(), "the scale figures");
    comparison
}

/// Eccentricities of a nearly circular orbit, of Oscar-10 and of the limit.
const ECCENTRICITIES: [u32; 3] = [1_000, ELEMENTS.eccentricity, 9_000_000];

/// Mean anomalies all around the orbit, one after another in no order.
struct MeanAnomalies(u32);

impl MeanAnomalies {
    fn next(&mut self) -> u32 {
        self.0 = self.0.wrapping_add(0x9e37_79b9);
        black_box(self.0)
    }
}

fn solve(eccentricity: u32, mean_anomaly: u32) {
    let anomaly = yurdelmiz::kepler(eccentricity, mean_anomaly);
    black_box(anomaly.expect("an accepted eccentricity"));
}

fn reference_solve(eccentricity: u32, mean_anomaly: u32) {
    let anomaly = reference::kepler::solve(eccentricity, mean_anomaly);
    black_box(anomaly.expect("an accepted eccentricity"));
}

/// One solution.
fn kepler(repeats: usize, eccentricity: u32) -> Comparison {
    let (mut first, mut second) = (MeanAnomalies(0), MeanAnomalies(0));
    compare(repeats, &mut || solve(eccentricity, first.next()), &mut || {
        reference_solve(eccentricity, second.next())
    })
}

/// Solutions by the library and as many by the reference: to be run under a counter of
/// instructions.
fn solutions(eccentricity: u32, count: u32) {
    let (mut first, mut second) = (MeanAnomalies(0), MeanAnomalies(0));
    for _ in 0..count {
        solve(eccentricity, first.next());
        reference_solve(eccentricity, second.next());
    }
}

/// Squares of minor axes, from the circle's to that of the greatest eccentricity, in no order.
struct SquaredMinorAxes(u32);

impl SquaredMinorAxes {
    fn next(&mut self) -> u64 {
        self.0 = self.0.wrapping_add(0x9e37_79b9);
        let e30 = (u64::from(self.0) * 966_367_642) >> 32;
        black_box((1 << 60) - e30 * e30)
    }
}

/// One square root.
fn root(repeats: usize) -> Comparison {
    let (mut first, mut second) = (SquaredMinorAxes(0), SquaredMinorAxes(0));
    compare(
        repeats,
        &mut || {
            black_box(square_root::square_root(first.next()));
        },
        &mut || {
            black_box(second.next().isqrt());
        },
    )
}

/// Square roots by the library: to be run under a counter of instructions.
fn roots(count: u32) {
    let mut squares = SquaredMinorAxes(0);
    for _ in 0..count {
        black_box(square_root::square_root(squares.next()));
    }
}

/// Rows of each table of element sets.
const ROWS: [usize; 3] = [10, 1_000, MOST_ROWS];
const MOST_ROWS: usize = 100_000;

fn usage() -> ! {
    eprintln!(
        "usage: bench [REPEATS]\n       bench once RECORDS\n       bench packets RECORDS BYTES\n       bench kepler ECCENTRICITY SOLUTIONS\n       bench root ROOTS\n       bench sets ROWS"
    );
    std::process::exit(2);
}

fn main() {
    let words: Vec<String> = std::env::args().skip(1).collect();
    let repeats = match words.iter().map(String::as_str).collect::<Vec<_>>()[..] {
        [] => 21,
        ["once", records] => match records.parse() {
            Ok(records) if records <= DAY_RECORDS => return once(records),
            _ => usage(),
        },
        ["packets", records, size] => match (records.parse(), size.parse()) {
            (Ok(records), Ok(size)) if records <= DAY_RECORDS && size > 0 => {
                return packets_once(records, size)
            }
            _ => usage(),
        },
        ["kepler", eccentricity, count] => match (eccentricity.parse(), count.parse()) {
            (Ok(eccentricity), Ok(count)) if eccentricity <= 9_000_000 => {
                return solutions(eccentricity, count)
            }
            _ => usage(),
        },
        ["root", count] => match count.parse() {
            Ok(count) => return roots(count),
            _ => usage(),
        },
        ["sets", rows] => match rows.parse() {
            Ok(rows @ 1..=MOST_ROWS) => return element_sets::once(rows),
            _ => usage(),
        },
        [word] => match word.parse() {
            Ok(repeats) if repeats > 0 => repeats,
            _ => usage(),
        },
        _ => usage(),
    };
    println!("{repeats} repeats: library, reference, library / reference (least to greatest)");
    for eccentricity in ECCENTRICITIES {
        let name = format!("Kepler's equation, e {}", f64::from(eccentricity) / 1e7);
        print(&name, &kepler(repeats, eccentricity));
    }
    print("the square root", &root(repeats));
    print("reading 1,024 labels", &read(repeats));
    print("asking their tail", &dark_test(repeats));
    print("salvaging them", &salvage(repeats));
    print("scaling by them", &scale(repeats));
    print("labelling 1,024 records", &label(repeats, DAY_RECORDS));
    print("in packets of 100 bytes", &packets(repeats, 100));
    print("in one packet", &packets(repeats, DAY_RECORDS * 16));

    println!("growth of labelling, a record: library, reference, library / reference");
    let mut records = 16;
    while records <= DAY_RECORDS {
        let Comparison { library, reference, ratio, least, greatest } = label(repeats, records);
        let share = |nanoseconds: f64| nanoseconds / records as f64;
        let one = Comparison {
            library: share(library),
            reference: share(reference),
            ratio,
            least,
            greatest,
        };
        print(&format!("{records} records"), &one);
        records *= 2;
    }

    println!("tables of element sets, a call and a row: library, reference, library / reference");
    for (name, tables, time) in [
        ("finding in two", 2, element_sets::finding as fn(usize, usize) -> Comparison),
        ("putting ahead", 1, element_sets::putting_ahead),
        ("putting over", 1, element_sets::putting_over),
    ] {
        for rows in ROWS {
            let comparison = time(repeats, rows);
            print(&format!("{name}, {rows} rows"), &comparison);
            print_share("  a row", &comparison, tables * rows);
        }
    }
}
