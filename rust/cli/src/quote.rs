//! Names and lines of others as a message shows them: nothing in them moves the terminal.

use std::os::unix::ffi::OsStrExt;
use std::path::Path;

/// The longest piece that a message repeats, in characters: a line of two-line elements and a few more.
const LONGEST: usize = 72;

/// A file's name, as it was given.
pub fn path(path: &Path) -> String {
    escaped(&path.to_string_lossy())
}

/// A file's name on one line, such that no two names are shown alike: what is no text is shown as its bytes, and
/// a backslash as two.
pub fn name(path: &Path) -> String {
    // In UTF-8 the byte stands for nothing else.
    let parts: Vec<&[u8]> = path.as_os_str().as_bytes().split(|byte| *byte == b'\\').collect();
    shown(&parts.join(&b"\\\\"[..]))
}

/// A word of the arguments, in quotes.
pub fn word(word: &str) -> String {
    format!("'{}'", cut(&escaped(word)))
}

/// Bytes of a file, in quotes; what is no text is shown as its bytes.
pub fn bytes(bytes: &[u8]) -> String {
    // Four bytes are the most that a character has.
    let start = &bytes[..bytes.len().min(4 * LONGEST + 4)];
    format!("\"{}\"", cut(&shown(start)))
}

fn shown(bytes: &[u8]) -> String {
    let mut shown = String::new();
    for chunk in bytes.utf8_chunks() {
        shown.push_str(&escaped(chunk.valid()));
        for byte in chunk.invalid() {
            shown.push_str(&format!("\\x{byte:02x}"));
        }
    }
    shown
}

fn escaped(text: &str) -> String {
    let mut shown = String::new();
    for character in text.chars() {
        if character.is_control() {
            shown.extend(character.escape_default());
        } else {
            shown.push(character);
        }
    }
    shown
}

fn cut(text: &str) -> String {
    match text.char_indices().nth(LONGEST) {
        Some((at, _)) => format!("{}...", &text[..at]),
        None => text.to_owned(),
    }
}

#[cfg(test)]
mod tests {
    use std::collections::BTreeSet;
    use std::ffi::OsStr;

    use super::*;

    #[test]
    fn nothing_moves_the_terminal() {
        assert_eq!(bytes(b"node\t1\r"), r#""node\t1\r""#);
        assert_eq!(bytes(b"\x1b[2J\0\xff"), r#""\u{1b}[2J\u{0}\xff""#);
        assert_eq!(bytes("25.6°".as_bytes()), "\"25.6°\"");
        assert_eq!(bytes(&[b'x'; 1000]).len(), 77);
        assert_eq!(word("a\nb"), r"'a\nb'");
    }

    #[test]
    fn two_names_stay_two() {
        let shown = |bytes: &[u8]| name(Path::new(OsStr::from_bytes(bytes)));
        assert_eq!(shown(b"a folder/day.labels"), "a folder/day.labels");
        assert_eq!(shown("Tag 1°".as_bytes()), "Tag 1°");
        assert_eq!(shown(b"a\nb\t\x1b\x7f"), r"a\nb\t\u{1b}\u{7f}");
        assert_eq!(shown(b"\xff\xc3"), r"\xff\xc3");
        assert_eq!(shown(br"\n\\"), r"\\n\\\\");
        // Every name of up to four of these bytes, which make each other's escapes.
        let mut names: Vec<Vec<u8>> = vec![vec![]];
        for length in 0..4 {
            let longer = names.iter().filter(|name| name.len() == length);
            let longer: Vec<Vec<u8>> = longer
                .flat_map(|name| b"\\nxf\n\xff\xc3\x9f".map(|byte| [&name[..], &[byte]].concat()))
                .collect();
            names.extend(longer);
        }
        let lines: BTreeSet<String> = names.iter().map(|name| shown(name)).collect();
        assert_eq!((names.len(), lines.len()), (4_681, 4_681));
        assert!(lines.iter().all(|line| !line.contains(char::is_control)));
    }
}
