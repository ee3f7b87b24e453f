//! Counts comparisons and shows the first differences.

use std::collections::BTreeMap;
use std::fmt::{self, Debug, Formatter};
use std::time::Duration;

/// What a call gives, or the number and place of a refusal or fault.
pub type Outcome<T, P> = Result<T, (u32, P)>;

/// Bytes shown as hex digits, the first of them where there are many.
pub struct Hex<'a>(pub &'a [u8]);

impl Debug for Hex<'_> {
    fn fmt(&self, f: &mut Formatter) -> fmt::Result {
        const SHOWN_BYTES: usize = 128;
        write!(f, "{} bytes ", self.0.len())?;
        for byte in self.0.iter().take(SHOWN_BYTES) {
            write!(f, "{byte:02x}")?;
        }
        if self.0.len() > SHOWN_BYTES {
            write!(f, "..")?;
        }
        Ok(())
    }
}

/// A text with its bytes outside ASCII escaped, the first of it where it is long.
pub struct Text<'a>(pub &'a [u8]);

impl Debug for Text<'_> {
    fn fmt(&self, f: &mut Formatter) -> fmt::Result {
        const SHOWN_BYTES: usize = 1_000;
        let shown = self.0.len().min(SHOWN_BYTES);
        let dots = if shown < self.0.len() { ".." } else { "" };
        write!(f, "{} bytes \"{}\"{dots}", self.0.len(), self.0[..shown].escape_ascii())
    }
}

/// The most differences of a subject that are printed.
const SHOWN: u64 = 5;

/// The comparisons of a subject from which on each kind of answer that is due must be among them.
const ENOUGH: u64 = 10_000;

pub struct Report {
    subject: &'static str,
    comparisons: u64,
    /// How often each kind of answer was given, where the subject tells kinds apart.
    answers: BTreeMap<&'static str, u64>,
    /// How often each refusal, or fault of an elements file, was given, by its number.
    refusals: BTreeMap<u32, u64>,
    differences: u64,
}

impl Report {
    pub fn new(subject: &'static str) -> Report {
        Report {
            subject,
            comparisons: 0,
            answers: BTreeMap::new(),
            refusals: BTreeMap::new(),
            differences: 0,
        }
    }

    /// Counts an answer of a kind.
    pub fn answer(&mut self, kind: &'static str) {
        *self.answers.entry(kind).or_default() += 1;
    }

    /// Says that answers of a kind are due: that there are none is a difference.
    pub fn due(&mut self, kind: &'static str) {
        self.answers.entry(kind).or_default();
    }

    /// Says the same of a refusal.
    pub fn due_refusal(&mut self, number: u32) {
        self.refusals.entry(number).or_default();
    }

    /// Counts a difference for each kind and refusal that was due and not given, where enough was compared.
    pub fn end(&mut self) {
        let comparisons = self.comparisons;
        if comparisons < ENOUGH {
            return;
        }
        let answers = self.answers.iter().map(|(kind, times)| (kind.to_string(), *times));
        let refusals =
            self.refusals.iter().map(|(number, times)| (format!("refusal {number}"), *times));
        let missing: Vec<_> = answers.chain(refusals).filter(|(_, times)| *times == 0).collect();
        for (what, times) in missing {
            let input = format_args!("{comparisons} comparisons");
            self.difference(&input, &what, &times, &format_args!("1 or more"));
        }
    }

    /// Compares two outcomes of one input.
    pub fn outcomes<T: PartialEq + Debug, P: PartialEq + Debug>(
        &mut self,
        input: &dyn Debug,
        library: Outcome<T, P>,
        reference: Outcome<T, P>,
    ) {
        if let Err((number, _)) = &reference {
            *self.refusals.entry(*number).or_default() += 1;
        }
        self.equal(input, "", library, reference);
    }

    /// Compares two values; `what` says which of the input's.
    pub fn equal<T: PartialEq + Debug>(
        &mut self,
        input: &dyn Debug,
        what: &str,
        library: T,
        reference: T,
    ) {
        self.comparisons += 1;
        if library != reference {
            self.difference(input, what, &library, &reference);
        }
    }

    /// Compares bytes that two sides left, and shows from the first that differs.
    pub fn bytes(&mut self, input: &dyn Debug, what: &str, library: &[u8], reference: &[u8]) {
        let differs = library.iter().zip(reference).position(|(one, other)| one != other);
        let from = differs.unwrap_or(library.len().min(reference.len()));
        self.comparisons += 1;
        if library != reference {
            self.difference(
                input,
                what,
                &(from, Hex(&library[from..])),
                &(from, Hex(&reference[from..])),
            );
        }
    }

    fn difference(
        &mut self,
        input: &dyn Debug,
        what: &str,
        library: &dyn Debug,
        reference: &dyn Debug,
    ) {
        self.differences += 1;
        if self.differences <= SHOWN {
            println!("{} {what} of {input:?}", self.subject);
            println!("  library   {library:?}");
            println!("  reference {reference:?}");
        }
    }

    pub fn differences(&self) -> u64 {
        self.differences
    }

    pub fn print(&self, took: Duration) {
        let Report { subject, comparisons, answers, refusals, differences } = self;
        let seconds = took.as_secs_f64();
        println!("{subject}: {comparisons} comparisons, {differences} differences, {seconds:.1} s");
        for (kind, times) in answers {
            println!("  {kind}: {times}");
        }
        for (number, times) in refusals {
            let kind = if *number > 100 { "fault" } else { "refusal" };
            println!("  {kind} {number}: {times}");
        }
    }
}
