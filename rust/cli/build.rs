//! Says with which kit the archive was proved, for `--version`.
//!
//! `./yurdelmiz` leaves the line of `rt version` beside the archive that it builds. Where that file is
//! missing or older than the archive, the `rt` of this build is asked.

use std::env;
use std::fs;
use std::path::{Path, PathBuf};
use std::process::Command;
use std::time::SystemTime;

fn modified(path: &Path) -> Option<SystemTime> {
    fs::metadata(path).and_then(|metadata| metadata.modified()).ok()
}

/// The first line of a text, where it has one.
fn line(text: &str) -> Option<String> {
    let line = text.lines().next()?.trim();
    (!line.is_empty()).then(|| line.to_owned())
}

fn beside(archive: &Path, note: &Path) -> Option<String> {
    if modified(note)? < modified(archive)? {
        return None;
    }
    line(&fs::read_to_string(note).ok()?)
}

fn asked() -> Option<String> {
    let output = Command::new("rt").arg("version").output().ok()?;
    if !output.status.success() {
        return None;
    }
    line(&String::from_utf8(output.stdout).ok()?)
}

fn main() {
    let folder = match env::var_os("YURDELMIZ_LIB_DIR") {
        Some(folder) => PathBuf::from(folder),
        None => Path::new(env!("CARGO_MANIFEST_DIR")).join("../../target/staticlib"),
    };
    let archive = folder.join("libyurdelmiz.a");
    let note = folder.join("libyurdelmiz.kit");
    let kit = beside(&archive, &note).or_else(asked).unwrap_or_else(|| "unknown".to_owned());
    println!("cargo::rerun-if-env-changed=YURDELMIZ_LIB_DIR");
    println!("cargo::rerun-if-changed=build.rs");
    println!("cargo::rerun-if-changed={}", archive.display());
    // A file that is not there would have every build begin anew.
    if note.exists() {
        println!("cargo::rerun-if-changed={}", note.display());
    }
    println!("cargo::rustc-env=YURDELMIZ_KIT={kit}");
}
