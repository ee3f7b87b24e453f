//! A subcommand's words: its options, which may stand anywhere, and its operands, which are files or a time.

use std::borrow::Cow;
use std::ffi::{OsStr, OsString};
use std::path::Path;

use crate::failure::Failure;
use crate::quote;

/// An option, and what its value is called where it takes one.
pub struct Flag {
    pub name: &'static str,
    pub value: Option<&'static str>,
}

/// Ends the name of an operand that is given once or more.
const REPEATED: &str = "...";

/// The operand that is no file.
pub const TIME: &str = "TIME";

pub struct Command {
    /// One word, or two where the first is that of a family.
    pub name: &'static str,
    /// The name of the last may end in [`REPEATED`].
    pub operands: &'static [&'static str],
    pub flags: &'static [Flag],
    /// Its first lines, up to an empty one, are the usage.
    pub help: &'static str,
    pub run: fn(&Arguments) -> Result<(), Failure>,
}

/// As many operands as the command names, or more where its last is repeated, and the options given.
#[derive(Debug, Default)]
pub struct Arguments {
    operands: Vec<OsString>,
    flags: Vec<(&'static str, OsString)>,
}

impl Arguments {
    pub fn path(&self, number: usize) -> &Path {
        Path::new(&self.operands[number])
    }

    pub fn word(&self, number: usize) -> Cow<'_, str> {
        self.operands[number].to_string_lossy()
    }

    /// All operands.
    pub fn paths(&self) -> impl Iterator<Item = &Path> {
        self.operands.iter().map(Path::new)
    }

    pub fn has(&self, flag: &str) -> bool {
        self.value(flag).is_some()
    }

    pub fn value(&self, flag: &str) -> Option<&OsStr> {
        let given = self.flags.iter().find(|(name, _)| *name == flag);
        given.map(|(_, value)| value.as_os_str())
    }
}

impl Command {
    /// What the words say, or none where help is asked for.
    pub fn parse(&self, words: &[OsString]) -> Result<Option<Arguments>, Failure> {
        let mut arguments = Arguments::default();
        let mut words = words.iter();
        while let Some(word) = words.next() {
            let text = word.to_string_lossy();
            if text == "--" {
                arguments.operands.extend(words.by_ref().cloned());
            } else if text == "--help" || text == "-h" {
                return Ok(None);
            } else if text.len() > 1
                && text.starts_with('-')
                && !self.is_time(&text, arguments.operands.len())
            {
                let (name, joined) = match text.split_once('=') {
                    Some((name, value)) => (name, Some(OsString::from(value))),
                    None => (&*text, None),
                };
                let flag = self.flag(name)?;
                let value = self.value_of(flag, joined, &mut words)?;
                if arguments.has(flag.name) {
                    return Err(self.mistake(format!("{} is given twice", flag.name)));
                }
                arguments.flags.push((flag.name, value));
            } else {
                arguments.operands.push(word.clone());
            }
        }
        self.counted(arguments).map(Some)
    }

    pub fn mistake(&self, mistake: impl std::fmt::Display) -> Failure {
        Failure::usage(mistake, self.help)
    }

    /// Whether a word with a minus is a time before 1989-12-31, and no option.
    fn is_time(&self, text: &str, number: usize) -> bool {
        self.operands.get(number) == Some(&TIME)
            && text[1..].starts_with(|character: char| character.is_ascii_digit())
    }

    fn flag(&self, name: &str) -> Result<&'static Flag, Failure> {
        self.flags.iter().find(|flag| flag.name == name).ok_or_else(|| {
            let near = nearest(name, self.flags.iter().map(|flag| flag.name));
            let hint = match near {
                Some(near) => format!(": did you mean {near}?"),
                None => ": a file whose name begins with - stands after --".to_owned(),
            };
            self.mistake(format!("{} has no option {}{hint}", self.name, quote::word(name)))
        })
    }

    fn value_of<'a>(
        &self,
        flag: &Flag,
        joined: Option<OsString>,
        words: &mut impl Iterator<Item = &'a OsString>,
    ) -> Result<OsString, Failure> {
        match (flag.value, joined) {
            (None, None) => Ok(OsString::new()),
            (None, Some(_)) => Err(self.mistake(format!("{} takes no value", flag.name))),
            (Some(_), Some(value)) => Ok(value),
            (Some(what), None) => {
                words.next().filter(|word| !self.is_option(word)).cloned().ok_or_else(|| {
                    self.mistake(format!("{} is given without its {what}", flag.name))
                })
            }
        }
    }

    /// Whether a word is an option of the command, and so no value of another; one that only begins with a minus
    /// may be a value.
    fn is_option(&self, word: &OsStr) -> bool {
        let text = word.to_string_lossy();
        let name = text.split_once('=').map_or(&*text, |(name, _)| name);
        self.flags.iter().any(|flag| flag.name == name)
    }

    fn counted(&self, arguments: Arguments) -> Result<Arguments, Failure> {
        let (given, due) = (&arguments.operands, self.operands);
        if given.len() < due.len() {
            let missing: Vec<&str> = (given.len()..due.len()).map(|at| self.operand(at)).collect();
            let verb = if missing.len() == 1 { "is" } else { "are" };
            let missing = missing.join(" and ");
            return Err(self.mistake(format!("{}: {missing} {verb} missing", self.name)));
        }
        let repeated = due.last().is_some_and(|last| last.ends_with(REPEATED));
        if let Some(extra) = given.get(due.len()).filter(|_| !repeated) {
            let extra = quote::word(&extra.to_string_lossy());
            return Err(self.mistake(format!("{}: {extra} is one word too many", self.name)));
        }
        if let Some(empty) = given.iter().position(|word| word.is_empty()) {
            let empty = self.operand(empty);
            return Err(self.mistake(format!("{}: {empty} is empty", self.name)));
        }
        Ok(arguments)
    }

    /// What an operand is called; behind the last name, as that.
    fn operand(&self, number: usize) -> &'static str {
        let name = self.operands[number.min(self.operands.len() - 1)];
        name.strip_suffix(REPEATED).unwrap_or(name)
    }
}

/// The name that a mistyped word is nearest to, where that is one or two letters away, and less than half of it.
pub fn nearest<'a>(word: &str, names: impl Iterator<Item = &'a str>) -> Option<&'a str> {
    let (far, name) = names.map(|name| (distance(word, name), name)).min()?;
    (far <= 2 && 2 * far < name.len()).then_some(name)
}

/// How many letters are put in, left out, changed or swapped with the next from one word to the other.
fn distance(from: &str, to: &str) -> usize {
    let (from, to): (Vec<char>, Vec<char>) = (from.chars().collect(), to.chars().collect());
    let mut rows: Vec<Vec<usize>> = vec![(0..=to.len()).collect()];
    for i in 1..=from.len() {
        let mut row = vec![i];
        for j in 1..=to.len() {
            let change = usize::from(from[i - 1] != to[j - 1]);
            let mut least =
                (rows[i - 1][j - 1] + change).min(rows[i - 1][j] + 1).min(row[j - 1] + 1);
            if i > 1 && j > 1 && from[i - 1] == to[j - 2] && from[i - 2] == to[j - 1] {
                least = least.min(rows[i - 2][j - 2] + 1);
            }
            row.push(least);
        }
        rows.push(row);
    }
    rows[from.len()][to.len()]
}

#[cfg(test)]
mod tests {
    use super::*;

    const MANY: Command = Command {
        name: "many",
        operands: &["ONE", "OTHER..."],
        flags: &[
            Flag { name: "--flag", value: None },
            Flag { name: "--size", value: Some("N") },
            Flag { name: "--name", value: Some("NAME") },
        ],
        help: "usage: many [--flag] [--size N] [--name NAME] ONE OTHER...\n\nmore",
        run: |_| Ok(()),
    };

    fn parsed(words: &[&str]) -> Result<Vec<OsString>, Failure> {
        let words: Vec<OsString> = words.iter().map(OsString::from).collect();
        let arguments = MANY.parse(&words)?.expect("no help is asked for");
        Ok(arguments.paths().map(OsString::from).collect())
    }

    #[test]
    fn a_repeated_operand() {
        for words in [&["a", "b"][..], &["a", "b", "c"], &["a", "b", "b", "...", "a"]] {
            assert_eq!(parsed(words).unwrap(), words);
        }
        assert_eq!(parsed(&["a", "--flag", "b", "--", "--flag"]).unwrap(), ["a", "b", "--flag"]);
        for (words, told) in [
            (&[][..], "ONE and OTHER are missing"),
            (&["a"], "OTHER is missing"),
            (&["", "b"], "ONE is empty"),
            (&["a", ""], "OTHER is empty"),
            (&["a", "b", "c", "", "d"], "OTHER is empty"),
        ] {
            let failure = format!("{:?}", parsed(words).unwrap_err());
            assert!(failure.contains(&format!("\"many: {told}\\nusage: many ")), "{failure}");
        }
    }

    fn values(words: &[&str]) -> Result<[Option<OsString>; 2], Failure> {
        let words: Vec<OsString> = words.iter().chain(&["a", "b"]).map(OsString::from).collect();
        let arguments = MANY.parse(&words)?.expect("no help is asked for");
        Ok(["--size", "--name"].map(|flag| arguments.value(flag).map(OsString::from)))
    }

    #[test]
    fn values_of_options() {
        for (words, size, name) in [
            (&["--size", "-5"][..], Some("-5"), None),
            (&["--size=-5"], Some("-5"), None),
            (&["--size=", "--name", "--"], Some(""), Some("--")),
            (&["--name", "--nonsense", "--size", "1=2"], Some("1=2"), Some("--nonsense")),
            (&["--name=--size", "--size", "-"], Some("-"), Some("--size")),
            (&["--flag"], None, None),
        ] {
            let told = [size, name].map(|value| value.map(OsString::from));
            assert_eq!(values(words).unwrap(), told, "{words:?}");
        }
        for (words, told) in [
            (&["--size", "--name", "x"][..], "--size is given without its N"),
            (&["--size", "--name=x"], "--size is given without its N"),
            (&["--name", "--flag"], "--name is given without its NAME"),
            (&["--size", "1", "--size", "2"], "--size is given twice"),
            (&["-5", "--size"], "many has no option '-5'"),
        ] {
            let failure = format!("{:?}", values(words).unwrap_err());
            assert!(failure.contains(told), "{failure}");
        }
    }

    /// A minus with a digit behind it, where the time is due and nowhere else.
    #[test]
    fn times_with_a_minus() {
        const TIMED: Command = Command { operands: &["FILE", TIME], ..MANY };
        let parsed = |words: &[&str]| {
            let words: Vec<OsString> = words.iter().map(OsString::from).collect();
            TIMED.parse(&words).map(|arguments| arguments.unwrap().operands)
        };
        assert_eq!(parsed(&["a", "-5"]).unwrap(), ["a", "-5"]);
        assert_eq!(parsed(&["--size", "-5", "a", "-5s", "--flag"]).unwrap(), ["a", "-5s"]);
        assert_eq!(parsed(&["--", "-1", "-5"]).unwrap(), ["-1", "-5"]);
        for (words, told) in [
            (&["-5", "a"][..], "many has no option '-5'"),
            (&["a", "-x"], "many has no option '-x'"),
            (&["a", "--5"], "many has no option '--5'"),
            (&["a", "5", "-5"], "many has no option '-5'"),
        ] {
            let failure = format!("{:?}", parsed(words).unwrap_err());
            assert!(failure.contains(told), "{failure}");
        }
    }

    #[test]
    fn near_words() {
        let names = ["label", "list", "dark-test", "scale", "salvage", "plot", "help"];
        for (word, near) in [
            ("lable", Some("label")),
            ("labels", Some("label")),
            ("lst", Some("list")),
            ("plt", Some("plot")),
            ("hlep", Some("help")),
            ("darktest", Some("dark-test")),
            ("scael", Some("scale")),
            ("savage", Some("salvage")),
            ("salvge", Some("salvage")),
            ("nonsense", None),
            ("x", None),
        ] {
            assert_eq!(nearest(word, names.into_iter()), near, "{word}");
        }
        // Of a single letter every other is no mistyping.
        assert_eq!(nearest("-5", ["-o"].into_iter()), None);
    }
}
