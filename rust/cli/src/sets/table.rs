//! A table of element sets in a file: rows of 52 bytes and nothing else. What is a table is the library's question.

use std::fs;
use std::io;
use std::path::Path;

use yurdelmiz::{ffi, find_set, put_set, Elements, Refusal};

use crate::decimal::grouped;
use crate::failure::Failure;
use crate::input;

/// The bytes of a row.
pub const ROW: usize = ffi::ELEMENTS_BYTES;

/// The most sets of a table in a file, so that a device without an end is not read to it.
pub const MOST_SETS: usize = 1 << 20;

const LONGEST: usize = MOST_SETS * ROW;

pub struct Table<'a> {
    pub path: &'a Path,
    pub bytes: Vec<u8>,
}

/// Where a set was put.
pub struct Put {
    /// The number of its row, from 0.
    pub row: usize,
    /// Over the set of the same epoch.
    pub replaced: bool,
}

impl<'a> Table<'a> {
    pub fn read(path: &'a Path) -> Result<Table<'a>, Failure> {
        let bytes = input::read_start(path, LONGEST)?.bytes;
        if bytes.len() > LONGEST {
            let (most, sets) = (grouped(LONGEST as u64), grouped(MOST_SETS as u64));
            let told = format!(
                "cannot be read: it has over {most} bytes, and a table has at most {sets} sets"
            );
            return Err(Failure::file(path, told));
        }
        Ok(Table { path, bytes })
    }

    /// The same, or none where there is no such file.
    pub fn read_if_there(path: &'a Path) -> Result<Option<Table<'a>>, Failure> {
        match fs::symlink_metadata(path) {
            Err(error) if error.kind() == io::ErrorKind::NotFound => Ok(None),
            _ => Table::read(path).map(Some),
        }
    }

    /// The library's verdict.
    pub fn check(&self) -> Result<(), Refusal> {
        check(&self.bytes)
    }

    pub fn sets(&self) -> usize {
        self.bytes.len() / ROW
    }

    pub fn set(&self, row: usize) -> Elements {
        let bytes = &self.bytes[row * ROW..(row + 1) * ROW];
        Elements::from_bytes(bytes.try_into().expect("the bytes of a row"))
    }

    /// Puts a set in its place. On a refusal the table is unchanged.
    pub fn put(&mut self, elements: &Elements) -> Result<Put, Refusal> {
        let size = self.bytes.len();
        self.bytes.resize((size + ROW).min(LONGEST), 0);
        let put = put_set(elements, &mut self.bytes, size);
        self.bytes.truncate(*put.as_ref().unwrap_or(&size));
        let replaced = put? == size;
        let found = find_set(&self.bytes, self.bytes.len(), &[], 0, elements.epoch);
        Ok(Put { row: found.expect("the set that was put").number, replaced })
    }
}

/// The library's verdict on bytes as a table: 23, which comes after, is none on it.
pub fn check(bytes: &[u8]) -> Result<(), Refusal> {
    match find_set(bytes, bytes.len(), &[], 0, 0) {
        Ok(_) | Err(Refusal::NoSet) => Ok(()),
        Err(refusal) => Err(refusal),
    }
}
