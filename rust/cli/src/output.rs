//! A file that appears whole or not at all: written under another name beside its own, and renamed.

use std::ffi::{CString, OsStr, OsString};
use std::fs::{self, File, Metadata, OpenOptions, Permissions};
use std::io::{self, Write};
use std::os::unix::ffi::{OsStrExt, OsStringExt};
use std::os::unix::fs::{fchown, FileTypeExt, MetadataExt, OpenOptionsExt, PermissionsExt};
use std::path::{Path, PathBuf};
use std::process;

use crate::arguments::Command;
use crate::failure::{words, Failure};
use crate::quote;
use crate::signals;

/// What is asked of an output before anything is read: that it is none of the inputs, and that a file can
/// be put there.
pub fn check(command: &Command, path: &Path, inputs: &[&Path]) -> Result<(), Failure> {
    if let Ok(metadata) = fs::metadata(path) {
        for input in inputs {
            if fs::metadata(input).is_ok_and(|input| same_file(&input, &metadata)) {
                let (path, input) = (quote::path(path), quote::path(input));
                let other =
                    if path == input { String::new() } else { format!(", which is {input},") };
                return Err(command
                    .mistake(format!("{path}{other} is read, and cannot be written as well")));
            }
        }
    }
    existing(path)?;
    let folder = folder_of(path);
    match fs::metadata(&folder) {
        Ok(metadata) if metadata.is_dir() => Ok(()),
        Ok(_) => Err(unwritten(path, format!("{} is no folder", quote::path(&folder)))),
        Err(error) => {
            Err(unwritten(path, format!("the folder {}: {}", quote::path(&folder), words(&error))))
        }
    }
}

/// Writes the file: the bytes reach the disk under a temporary name, then take its own.
pub fn write(path: &Path, bytes: &[u8]) -> Result<(), Failure> {
    let replaced = existing(path)?;
    let failed = |error: io::Error| {
        let left = if replaced.is_some() { "it is as it was" } else { "nothing is left of it" };
        unwritten(path, format!("{}; {left}", words(&error)))
    };
    let mut temporary = Temporary::create(path, replaced.as_ref()).map_err(failed)?;
    temporary.fill(bytes, replaced.as_ref()).map_err(failed)?;
    // Once more: what stands there may have changed meanwhile.
    existing(path)?;
    temporary.rename(path).map_err(failed)?;
    sync_folder(&folder_of(path)).map_err(|error| {
        Failure::file(path, format!("is written, but perhaps not on the disk: {}", words(&error)))
    })
}

fn same_file(one: &Metadata, other: &Metadata) -> bool {
    (one.dev(), one.ino()) == (other.dev(), other.ino())
}

fn unwritten(path: &Path, why: String) -> Failure {
    Failure::file(path, format!("cannot be written: {why}"))
}

/// The regular file that stands there, or none. Anything else is left alone.
fn existing(path: &Path) -> Result<Option<Metadata>, Failure> {
    let folder_name = path.as_os_str().as_bytes().ends_with(b"/") || path.file_name().is_none();
    let metadata = match fs::symlink_metadata(path) {
        Ok(metadata) => metadata,
        Err(error) if error.kind() == io::ErrorKind::NotFound && !folder_name => return Ok(None),
        Err(error) if error.kind() == io::ErrorKind::NotFound => {
            return Err(unwritten(path, "that is the name of a folder".to_owned()));
        }
        Err(error) => return Err(unwritten(path, words(&error))),
    };
    let kind = metadata.file_type();
    let what = if kind.is_file() {
        return Ok(Some(metadata));
    } else if kind.is_symlink() {
        let to = fs::read_link(path).unwrap_or_default();
        return Err(unwritten(
            path,
            format!("it is a symbolic link: name the file itself, {}", quote::path(&to)),
        ));
    } else if kind.is_dir() {
        "a folder"
    } else if kind.is_fifo() {
        "a pipe"
    } else if kind.is_socket() {
        "a socket"
    } else {
        "a device"
    };
    Err(unwritten(path, format!("it is {what}: name a file")))
}

fn folder_of(path: &Path) -> PathBuf {
    match path.parent() {
        Some(folder) if !folder.as_os_str().is_empty() => folder.to_owned(),
        _ => PathBuf::from("."),
    }
}

/// `.NAME.yurdelmiz-PID-N.tmp`, with as much of the name as a file's name has room for.
fn temporary_name(name: &OsStr, number: u32) -> OsString {
    let end = format!(".yurdelmiz-{}-{number}.tmp", process::id());
    let name = name.as_bytes();
    let mut bytes = b".".to_vec();
    bytes.extend(&name[..name.len().min(254 - end.len())]);
    bytes.extend(end.as_bytes());
    OsString::from_vec(bytes)
}

/// A file that is removed unless it is renamed.
struct Temporary {
    path: PathBuf,
    file: File,
    renamed: bool,
}

impl Temporary {
    /// A new file beside the one that it will be. What another run left there stays, and is not in the way.
    fn create(path: &Path, replaced: Option<&Metadata>) -> io::Result<Temporary> {
        let name = path.file_name().expect("a file's name");
        let mut number = 0;
        loop {
            let path = folder_of(path).join(temporary_name(name, number));
            match create_new(&path, replaced) {
                Err(error) if error.kind() == io::ErrorKind::AlreadyExists => number += 1,
                Err(error) => return Err(error),
                Ok(file) => return Ok(Temporary { path, file, renamed: false }),
            }
        }
    }

    /// All bytes on the disk, with the permissions and the owner of the file that they replace.
    fn fill(&mut self, bytes: &[u8], replaced: Option<&Metadata>) -> io::Result<()> {
        if let Some(replaced) = replaced {
            let own = self.file.metadata()?;
            if (own.uid(), own.gid()) != (replaced.uid(), replaced.gid()) {
                // Only root can give a file away; another user's file becomes the writer's.
                let _ = fchown(&self.file, Some(replaced.uid()), Some(replaced.gid()));
            }
            self.file.set_permissions(Permissions::from_mode(replaced.mode() & 0o777))?;
        }
        self.file.write_all(bytes)?;
        self.file.sync_all()
    }

    fn rename(mut self, path: &Path) -> io::Result<()> {
        fs::rename(&self.path, path)?;
        self.renamed = true;
        Ok(())
    }
}

impl Drop for Temporary {
    fn drop(&mut self) {
        if !self.renamed {
            let _ = fs::remove_file(&self.path);
        }
        signals::remove_on_signal(None);
    }
}

/// Readable by its owner alone until it has the permissions of the file that it replaces.
fn create_new(path: &Path, replaced: Option<&Metadata>) -> io::Result<File> {
    let mode = if replaced.is_some() { 0o600 } else { 0o666 };
    let on_signal = CString::new(path.as_os_str().as_bytes())?;
    signals::held(|| {
        let file = OpenOptions::new().write(true).create_new(true).mode(mode).open(path)?;
        signals::remove_on_signal(Some(on_signal));
        Ok(file)
    })
}

/// The new name on the disk. Some file systems have no such call for a folder.
fn sync_folder(folder: &Path) -> io::Result<()> {
    match File::open(folder)?.sync_all() {
        Err(error) if error.kind() == io::ErrorKind::InvalidInput => Ok(()),
        result => result,
    }
}

#[cfg(test)]
mod tests {
    use super::*;
    use std::env;

    fn folder(name: &str) -> PathBuf {
        let folder = env::temp_dir().join(format!("yurdelmiz-output-{}-{name}", process::id()));
        fs::create_dir(&folder).unwrap();
        folder
    }

    fn names(folder: &Path) -> Vec<OsString> {
        let mut names: Vec<_> =
            fs::read_dir(folder).unwrap().map(|entry| entry.unwrap().file_name()).collect();
        names.sort();
        names
    }

    /// Files left by a process of the same number: the next names are taken.
    #[test]
    fn a_leftover_is_not_in_the_way() {
        let folder = folder("leftover");
        let path = folder.join("day");
        for number in 0..3 {
            fs::write(folder.join(temporary_name(OsStr::new("day"), number)), "left").unwrap();
        }
        write(&path, b"whole").unwrap();
        assert_eq!(fs::read(&path).unwrap(), b"whole");
        assert_eq!(names(&folder).len(), 4);
        fs::remove_dir_all(&folder).unwrap();
    }

    #[test]
    fn a_temporary_file_is_removed_unless_renamed() {
        let folder = folder("removed");
        let path = folder.join("day");
        drop(Temporary::create(&path, None).unwrap());
        assert!(names(&folder).is_empty());
        Temporary::create(&path, None).unwrap().rename(&path).unwrap();
        assert_eq!(names(&folder), ["day"]);
        fs::remove_dir_all(&folder).unwrap();
    }

    #[test]
    fn a_long_name_leaves_room() {
        for length in [1, 200, 254, 255] {
            let name = OsString::from("x".repeat(length));
            assert!(temporary_name(&name, u32::MAX).len() <= 255);
        }
    }
}
