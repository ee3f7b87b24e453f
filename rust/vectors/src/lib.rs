//! Runs the lines of vectors/ against a labeller.

use std::fmt::Display;
use std::str::{FromStr, SplitWhitespace};

/// The vectors, with the number of their lines; the head of a file says what a line holds.
const VECTORS: [(&str, usize); 7] = [
    (include_str!("../../../vectors/K01.txt"), 666),
    (include_str!("../../../vectors/K04.txt"), 1_760),
    (include_str!("../../../vectors/K05.txt"), 410),
    (include_str!("../../../vectors/K06.txt"), 400),
    (include_str!("../../../vectors/K09.txt"), 600),
    (include_str!("../../../vectors/K12.txt"), 152),
    (include_str!("../../../vectors/K13.txt"), 600),
];

/// What an output holds before a call.
const FILL: u8 = 0xaa;

/// A refusal's number and place.
pub type Refused = (u32, u32);

/// Elements, named as in document 01's text.
#[derive(Clone, Copy, Debug, PartialEq, Eq)]
pub struct Elements {
    pub eccentricity: u32,
    pub semi_major_axis: u32,
    pub inclination: u32,
    pub node: u32,
    pub argument_of_perigee: u32,
    pub mean_anomaly: u32,
    pub mean_motion: u32,
    pub node_rate: i32,
    pub perigee_rate: i32,
    pub epoch_revolution: u32,
    pub epoch: i64,
    pub half_mean_motion_derivative: i32,
}

/// The most bytes of an unfinished record.
const HELD_MAX: usize = 15;

/// The state of a day that takes packets.
#[derive(Clone, Copy, Debug, PartialEq, Eq)]
pub struct Day {
    pub elements: Elements,
    pub closed: bool,
    /// How many bytes of an unfinished record are held.
    pub have: u8,
    pub held: [u8; HELD_MAX],
    /// Labels, training, test, dark and dark test.
    pub counts: [u32; 5],
}

/// Scale figures. An extreme is its watts' bits, where it is held.
#[derive(Clone, Copy, Debug, PartialEq, Eq)]
pub struct Figures {
    pub files: u32,
    pub labels: u32,
    pub dark: u32,
    pub valid: u32,
    pub least: Option<u32>,
    pub greatest: Option<u32>,
    pub sines: i64,
    pub squares: u64,
}

/// A table of element sets: the buffer that it begins, and its size.
#[derive(Clone, Copy, Debug)]
pub struct Table<'a> {
    pub buffer: &'a [u8],
    pub size: usize,
}

/// The row of a set in the past or the forecast table, from 0.
#[derive(Clone, Copy, Debug, PartialEq, Eq)]
pub enum Row {
    Past(usize),
    Forecast(usize),
}

/// What the vectors ask. Answers are in the order of a line; a refusal is its number.
pub trait Labeller {
    fn sine(&self, angle: u32) -> i64;
    fn kepler(&self, eccentricity: u32, mean_anomaly: u32) -> Result<[i64; 2], u32>;
    fn sun(&self, time: i64) -> Result<[i64; 7], u32>;
    fn position(&self, elements: Elements, time: i64) -> Result<[i64; 8], u32>;
    fn shade(&self, position: [i64; 3], sun: [i64; 3]) -> Result<[i64; 1], u32>;
    fn label(&self, elements: Elements, telemetry: &[u8], output: &mut [u8])
        -> Result<(), Refused>;
    fn read(&self, file: &[u8]) -> Result<[i64; 6], Refused>;
    /// Adds to the file in the first `length` bytes, and gives the file's length after it.
    fn add(
        &self,
        elements: Elements,
        buffer: &mut [u8],
        length: usize,
        telemetry: &[u8],
    ) -> Result<usize, Refused>;
    /// The dark test labels by the last bytes of a file and its length, or none where they are not held.
    fn tail(&self, tail: &[u8], length: u64) -> Result<Option<u32>, u32>;
    /// The labels kept, and the bytes dropped.
    fn salvage(&self, bytes: &[u8], output: &mut [u8]) -> Result<(u32, u64), u32>;
    fn open(&self, elements: Elements) -> Result<Day, u32>;
    /// The labels written.
    fn packet(&self, day: &mut Day, packet: &[u8], output: &mut [u8]) -> Result<usize, Refused>;
    fn close(&self, day: &mut Day, output: &mut [u8]) -> Result<(), Refused>;
    /// Adds the file in the first `length` bytes of `buffer`.
    fn scale(&self, figures: &mut Figures, buffer: &[u8], length: usize) -> Result<(), Refused>;
    /// The elements of two lines, with what comes beside them.
    fn two_line(
        &self,
        lines: [&[u8]; 2],
        semi_major_axis: u32,
        node_rate: i32,
        perigee_rate: i32,
    ) -> Result<Elements, Refused>;
    /// The set for a time.
    fn find(&self, past: Table, forecast: Table, time: i64) -> Result<Row, u32>;
    /// Puts a set into the table in the first `size` bytes, and gives the table's size after it.
    fn put(&self, elements: Elements, buffer: &mut [u8], size: usize) -> Result<usize, u32>;
}

/// The words of a line's inputs, taken one after another.
struct Inputs<'a>(SplitWhitespace<'a>);

impl<'a> Inputs<'a> {
    fn word(&mut self) -> &'a str {
        self.0.next().expect("one more input")
    }

    fn number<T: FromStr>(&mut self) -> T {
        let word = self.word();
        word.parse().unwrap_or_else(|_| panic!("{word} is no such number"))
    }

    fn three(&mut self) -> [i64; 3] {
        [self.number(), self.number(), self.number()]
    }

    /// Hex digits, or `-` for none.
    fn bytes(&mut self) -> Vec<u8> {
        match self.word() {
            "-" => Vec::new(),
            digits => (0..digits.len())
                .step_by(2)
                .map(|at| u8::from_str_radix(&digits[at..at + 2], 16).expect("hex digits"))
                .collect(),
        }
    }

    fn elements(&mut self) -> Elements {
        Elements {
            eccentricity: self.number(),
            semi_major_axis: self.number(),
            inclination: self.number(),
            node: self.number(),
            argument_of_perigee: self.number(),
            mean_anomaly: self.number(),
            mean_motion: self.number(),
            node_rate: self.number(),
            perigee_rate: self.number(),
            epoch_revolution: self.number(),
            epoch: self.number(),
            half_mean_motion_derivative: self.number(),
        }
    }

    fn day(&mut self) -> Day {
        Day {
            elements: self.elements(),
            closed: match self.word() {
                "0" => false,
                "1" => true,
                word => panic!("a day is not closed by {word}"),
            },
            have: self.number(),
            held: self.bytes().try_into().expect("15 bytes"),
            counts: [0; 5].map(|_| self.number()),
        }
    }

    /// Hex digits, or `-` for none.
    fn extreme(&mut self) -> Option<u32> {
        match self.word() {
            "-" => None,
            digits => Some(u32::from_str_radix(digits, 16).expect("hex digits")),
        }
    }

    fn figures(&mut self) -> Figures {
        Figures {
            files: self.number(),
            labels: self.number(),
            dark: self.number(),
            valid: self.number(),
            least: self.extreme(),
            greatest: self.extreme(),
            sines: self.number(),
            squares: self.number(),
        }
    }
}

/// The text of an accepted answer.
fn accepted(words: impl IntoIterator<Item = impl Display>) -> String {
    words.into_iter().fold("ok".to_string(), |text, word| format!("{text} {word}"))
}

fn refused(number: u32) -> String {
    format!("no {number}")
}

fn refused_at((number, place): Refused) -> String {
    format!("no {number} {place}")
}

fn hex(bytes: &[u8]) -> String {
    bytes.iter().map(|byte| format!("{byte:02x}")).collect()
}

/// The same, and `-` for none.
fn hex_or_dash(bytes: &[u8]) -> String {
    if bytes.is_empty() {
        "-".to_string()
    } else {
        hex(bytes)
    }
}

/// The bytes that a day holds, behind which are zeros, and its counts.
fn state(day: &Day) -> Vec<String> {
    let (held, behind) = day.held.split_at(day.have.into());
    assert!(behind.iter().all(|byte| *byte == 0), "zeros behind the bytes held");
    let counts = day.counts.iter().map(u32::to_string);
    [hex_or_dash(held)].into_iter().chain(counts).collect()
}

/// Figures as a line has them.
fn figures_text(figures: &Figures) -> Vec<String> {
    let Figures { files, labels, dark, valid, least, greatest, sines, squares } = *figures;
    let extreme =
        |bits: Option<u32>| bits.map_or_else(|| "-".to_string(), |bits| format!("{bits:08x}"));
    let counts = [files, labels, dark, valid].map(|count| count.to_string());
    let extremes = [extreme(least), extreme(greatest)];
    [&counts[..], &extremes, &[sines.to_string(), squares.to_string()]].concat()
}

/// Elements as a line has them.
fn elements_text(elements: &Elements) -> [i64; 12] {
    [
        elements.eccentricity.into(),
        elements.semi_major_axis.into(),
        elements.inclination.into(),
        elements.node.into(),
        elements.argument_of_perigee.into(),
        elements.mean_anomaly.into(),
        elements.mean_motion.into(),
        elements.node_rate.into(),
        elements.perigee_rate.into(),
        elements.epoch_revolution.into(),
        elements.epoch,
        elements.half_mean_motion_derivative.into(),
    ]
}

/// What a call gives and leaves in an output of `room` bytes; a refusal leaves it as it was.
fn lend<T, E>(
    room: usize,
    call: impl FnOnce(&mut [u8]) -> Result<T, E>,
) -> Result<(T, Vec<u8>), E> {
    let mut output = vec![FILL; room];
    let outcome = call(&mut output);
    if outcome.is_err() {
        assert!(output.iter().all(|byte| *byte == FILL), "a refusal wrote");
    }
    outcome.map(|given| (given, output))
}

/// What the labeller answers to a line, as the line would have it.
fn answer(labeller: &impl Labeller, subject: &str, mut inputs: Inputs) -> String {
    match subject {
        "sine" => labeller.sine(inputs.number()).to_string(),
        "kepler" => {
            labeller.kepler(inputs.number(), inputs.number()).map_or_else(refused, accepted)
        }
        "sun" => labeller.sun(inputs.number()).map_or_else(refused, accepted),
        "position" => {
            labeller.position(inputs.elements(), inputs.number()).map_or_else(refused, accepted)
        }
        "shade" => labeller.shade(inputs.three(), inputs.three()).map_or_else(refused, accepted),
        "label" => {
            let elements = inputs.elements();
            let telemetry = inputs.bytes();
            lend(inputs.number(), |output| labeller.label(elements, &telemetry, output))
                .map_or_else(refused_at, |((), output)| accepted([hex(&output)]))
        }
        "read" => labeller.read(&inputs.bytes()).map_or_else(refused_at, accepted),
        "add" => {
            let elements = inputs.elements();
            let before = inputs.bytes();
            let length = inputs.number();
            let telemetry = inputs.bytes();
            let mut buffer = before.clone();
            let outcome = labeller.add(elements, &mut buffer, length, &telemetry);
            if outcome.is_err() {
                assert_eq!(buffer, before, "a refusal wrote");
            }
            outcome.map_or_else(refused_at, |length| accepted([length.to_string(), hex(&buffer)]))
        }
        "tail" => match labeller.tail(&inputs.bytes(), inputs.number()) {
            Ok(Some(dark_test)) => accepted([dark_test]),
            Ok(None) => "unheld".to_string(),
            Err(number) => refused(number),
        },
        "salvage" => {
            let bytes = inputs.bytes();
            lend(inputs.number(), |output| labeller.salvage(&bytes, output)).map_or_else(
                refused,
                |((kept, dropped), output)| {
                    accepted([kept.to_string(), dropped.to_string(), hex(&output)])
                },
            )
        }
        "open" => {
            let elements = inputs.elements();
            match labeller.open(elements) {
                Ok(day) => {
                    let held = [0; HELD_MAX];
                    let opened = Day { elements, closed: false, have: 0, held, counts: [0; 5] };
                    assert_eq!(day, opened, "the state of a day that was opened");
                    "ok".to_string()
                }
                Err(number) => refused(number),
            }
        }
        "packet" => {
            let before = inputs.day();
            let packet = inputs.bytes();
            let mut day = before;
            let outcome =
                lend(inputs.number(), |output| labeller.packet(&mut day, &packet, output));
            let kept = if outcome.is_ok() {
                Day { have: day.have, held: day.held, counts: day.counts, ..before }
            } else {
                before
            };
            assert_eq!(day, kept, "what stays of a day");
            outcome.map_or_else(refused_at, |(labels, output)| {
                let words = [labels.to_string()].into_iter().chain(state(&day));
                accepted(words.chain([hex_or_dash(&output)]))
            })
        }
        "close" => {
            let before = inputs.day();
            let mut day = before;
            let outcome = lend(inputs.number(), |output| labeller.close(&mut day, output));
            let closed = outcome.is_ok() || before.closed;
            assert_eq!(day, Day { closed, ..before }, "what stays of a day");
            outcome.map_or_else(refused_at, |((), output)| accepted([hex(&output)]))
        }
        "scale" => {
            let before = inputs.figures();
            let buffer = inputs.bytes();
            let mut figures = before;
            let outcome = labeller.scale(&mut figures, &buffer, inputs.number());
            if outcome.is_err() {
                assert_eq!(figures, before, "a refused file adds nothing");
            }
            outcome.map_or_else(refused_at, |()| accepted(figures_text(&figures)))
        }
        "tle" => {
            let [first, second] = [inputs.bytes(), inputs.bytes()];
            let (axis, node_rate) = (inputs.number(), inputs.number());
            labeller
                .two_line([&first, &second], axis, node_rate, inputs.number())
                .map_or_else(refused_at, |elements| accepted(elements_text(&elements)))
        }
        "find" => {
            let (past, past_size) = (inputs.bytes(), inputs.number());
            let (forecast, forecast_size) = (inputs.bytes(), inputs.number());
            let past = Table { buffer: &past, size: past_size };
            let forecast = Table { buffer: &forecast, size: forecast_size };
            match labeller.find(past, forecast, inputs.number()) {
                Ok(Row::Past(row)) => format!("past {row}"),
                Ok(Row::Forecast(row)) => format!("forecast {row}"),
                Err(number) => refused(number),
            }
        }
        "put" => {
            let before = inputs.bytes();
            let size = inputs.number();
            let mut buffer = before.clone();
            let outcome = labeller.put(inputs.elements(), &mut buffer, size);
            if outcome.is_err() {
                assert_eq!(buffer, before, "a refusal wrote");
            }
            outcome.map_or_else(refused, |size| accepted([size.to_string(), hex(&buffer)]))
        }
        _ => panic!("no subject {subject}"),
    }
}

/// Runs every vector, and panics at the first that does not match.
pub fn run(labeller: &impl Labeller) {
    for (lines, number) in VECTORS {
        let mut compared = 0;
        for line in lines.lines().filter(|line| !line.starts_with('#')) {
            let (asked, expected) = line.split_once(" = ").expect("inputs = answer");
            let (subject, inputs) = asked.split_once(' ').expect("a subject and its inputs");
            let found = answer(labeller, subject, Inputs(inputs.split_whitespace()));
            assert_eq!(found, expected, "{line}");
            compared += 1;
        }
        assert_eq!(compared, number, "the vectors are all there");
    }
}
