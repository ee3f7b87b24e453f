//! Files that are read, and of each no more is kept than can be of use.

use std::fs::{self, File, Metadata};
use std::io::{self, Read, Seek, SeekFrom};
use std::os::unix::fs::FileExt;
use std::path::Path;

use crate::failure::{words, Failure};

const FOLDER: &str = "it is a folder: name a file";

fn unread(path: &Path, why: impl std::fmt::Display) -> Failure {
    Failure::file(path, format!("cannot be read: {why}"))
}

fn open(path: &Path) -> Result<File, Failure> {
    opened(path).map_err(|why| unread(path, why))
}

/// The same, or why it cannot be read.
fn opened(path: &Path) -> Result<File, String> {
    let file = File::open(path).map_err(|error| words(&error))?;
    if fs::metadata(path).is_ok_and(|metadata| metadata.is_dir()) {
        return Err(FOLDER.to_owned());
    }
    Ok(file)
}

/// The start of a file.
pub struct Start {
    /// The file, or one byte more than the most that was asked for.
    pub bytes: Vec<u8>,
    /// The length of the whole file, where it is known.
    pub length: Option<u64>,
}

/// A file up to `most` bytes, and one more by which a longer one is known.
pub fn read_start(path: &Path, most: usize) -> Result<Start, Failure> {
    let file = open(path)?;
    let metadata = file.metadata().map_err(|error| unread(path, words(&error)))?;
    let mut bytes = Vec::new();
    let read = file.take(most as u64 + 1).read_to_end(&mut bytes);
    read.map_err(|error| unread(path, words(&error)))?;
    let length = if bytes.len() <= most {
        Some(bytes.len() as u64)
    } else {
        metadata.is_file().then_some(metadata.len().max(bytes.len() as u64))
    };
    Ok(Start { bytes, length })
}

/// The end of a file.
pub struct End {
    /// The last bytes, as many as were asked for or all.
    pub bytes: Vec<u8>,
    /// The length of the whole file.
    pub length: u64,
}

/// A whole file, which is its own end.
pub fn read_whole(path: &Path) -> Result<End, Failure> {
    let mut bytes = Vec::new();
    open(path)?.read_to_end(&mut bytes).map_err(|error| unread(path, words(&error)))?;
    Ok(End { length: bytes.len() as u64, bytes })
}

/// The last `most` bytes of a file of any length.
pub fn read_end(path: &Path, most: usize) -> Result<End, Failure> {
    end_of(path, most).map_err(|why| unread(path, why))
}

/// The same, or why it cannot be read.
pub fn end_of(path: &Path, most: usize) -> Result<End, String> {
    let mut file = opened(path)?;
    let ahead = skip_to_end(&mut file, most).map_err(|error| words(&error))?;
    let mut bytes = Vec::new();
    let mut length = ahead;
    let mut block = [0; 65_536];
    loop {
        match file.read(&mut block) {
            Ok(0) => break,
            Ok(read) => {
                length += read as u64;
                bytes.extend_from_slice(&block[..read]);
                // Twice the most is kept, so that few bytes are moved.
                if bytes.len() > 2 * most + block.len() {
                    bytes.drain(..bytes.len() - most);
                }
            }
            Err(error) if error.kind() == io::ErrorKind::Interrupted => {}
            Err(error) => return Err(words(&error)),
        }
    }
    bytes.drain(..bytes.len().saturating_sub(most));
    Ok(End { bytes, length })
}

/// Goes to `most` bytes before the end of a regular file, and says how many bytes that skips. What is no
/// regular file is read from its start.
fn skip_to_end(file: &mut File, most: usize) -> io::Result<u64> {
    let metadata = file.metadata()?;
    if !metadata.is_file() {
        return Ok(0);
    }
    let ahead = metadata.len().saturating_sub(most as u64);
    file.seek(SeekFrom::Start(ahead))
}

/// The first bytes of a file.
pub struct First {
    /// As many as were asked for, or all.
    pub bytes: Vec<u8>,
    /// The length of the whole file.
    pub length: u64,
}

/// The first `most` bytes of a file of any length and kind. The length of a regular file is the one that it has
/// when it is opened; what has none is read to its end, and none of that is kept.
pub fn read_first(path: &Path, most: usize) -> Result<First, Failure> {
    let mut file = open(path)?;
    let told = |error: io::Error| unread(path, words(&error));
    let metadata = file.metadata().map_err(told)?;
    if metadata.is_file() {
        let length = metadata.len();
        let bytes = first_bytes(&file, length, most).map_err(|why| unread(path, why))?;
        return Ok(First { bytes, length });
    }
    let mut bytes = Vec::new();
    file.by_ref().take(most as u64).read_to_end(&mut bytes).map_err(told)?;
    let behind = io::copy(&mut file, &mut io::sink()).map_err(told)?;
    Ok(First { length: bytes.len() as u64 + behind, bytes })
}

/// The last bytes of a regular file, as many as there is room for or all, and the file's length; or why they
/// cannot be had. Nothing else of the file is read.
pub fn read_tail<'a>(path: &Path, room: &'a mut [u8]) -> Result<(&'a [u8], u64), String> {
    let told = |error: io::Error| words(&error);
    // Before it is opened: a pipe would wait for its writer.
    check_regular(&fs::metadata(path).map_err(told)?)?;
    let file = File::open(path).map_err(told)?;
    let metadata = file.metadata().map_err(told)?;
    check_regular(&metadata)?;
    let length = metadata.len();
    Ok((last_bytes(&file, length, room)?, length))
}

/// The first bytes of an open file, by the length that it had.
fn first_bytes(file: &File, length: u64, most: usize) -> Result<Vec<u8>, String> {
    let mut bytes = vec![0; length.min(most as u64) as usize];
    bytes_at(file, 0, &mut bytes)?;
    Ok(bytes)
}

/// The last bytes of an open file, by the length that it had.
fn last_bytes<'a>(file: &File, length: u64, room: &'a mut [u8]) -> Result<&'a [u8], String> {
    let number = length.min(room.len() as u64);
    let tail = &mut room[..number as usize];
    bytes_at(file, length - number, tail)?;
    Ok(tail)
}

/// The bytes of an open file from a place on, which it had by its length.
fn bytes_at(file: &File, at: u64, room: &mut [u8]) -> Result<(), String> {
    file.read_exact_at(room, at).map_err(|error| match error.kind() {
        io::ErrorKind::UnexpectedEof => "it changed while it was read".to_owned(),
        _ => words(&error),
    })
}

/// That a file has a length.
fn check_regular(metadata: &Metadata) -> Result<(), String> {
    if metadata.is_dir() {
        Err(FOLDER.to_owned())
    } else if !metadata.is_file() {
        Err("it is a device, a pipe or a socket, and has no length: name a file".to_owned())
    } else {
        Ok(())
    }
}

/// Whether the start of some bytes could be text.
pub fn looks_like_text(bytes: &[u8]) -> bool {
    let start = &bytes[..bytes.len().min(512)];
    let text = match std::str::from_utf8(start) {
        Ok(text) => text,
        // A character that the cut went through.
        Err(error) if error.error_len().is_none() => {
            std::str::from_utf8(&start[..error.valid_up_to()]).unwrap_or("")
        }
        Err(_) => return false,
    };
    !text.is_empty() && text.chars().all(|c| !c.is_control() || matches!(c, '\n' | '\r' | '\t'))
}

#[cfg(test)]
mod tests {
    use std::{env, process};

    use super::*;

    #[test]
    fn a_file_that_was_cut() {
        let path = env::temp_dir().join(format!("yurdelmiz-input-{}", process::id()));
        let bytes: Vec<u8> = (0..30).collect();
        fs::write(&path, &bytes).unwrap();
        let file = File::open(&path).unwrap();
        fs::remove_file(&path).unwrap();
        let changed = "it changed while it was read".to_owned();
        let mut room = [0; 24];
        assert_eq!(last_bytes(&file, 30, &mut room), Ok(&bytes[6..]));
        assert_eq!(first_bytes(&file, 30, 24), Ok(bytes[..24].to_vec()));
        assert_eq!(first_bytes(&file, 30, 40), Ok(bytes.clone()));
        for length in [31, 53, 54, 55, 1 << 40] {
            assert_eq!(last_bytes(&file, length, &mut room), Err(changed.clone()), "{length}");
            assert_eq!(first_bytes(&file, length, 31), Err(changed.clone()), "{length}");
            // All that are asked for are there.
            assert_eq!(first_bytes(&file, length, 30), Ok(bytes.clone()), "{length}");
        }
        // It was written to: the bytes are those of the length.
        for length in [24, 3, 0] {
            assert_eq!(last_bytes(&file, length as u64, &mut room), Ok(&bytes[..length]));
            assert_eq!(first_bytes(&file, length as u64, 24), Ok(bytes[..length].to_vec()));
        }
    }
}
