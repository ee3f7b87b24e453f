//! Links libyurdelmiz.a, the proved library with its C interface (include/yurdelmiz.h).
//!
//! The archive is looked for in target/staticlib at the root of the repository, or in the folder
//! that YURDELMIZ_LIB_DIR names.

use std::env;
use std::path::{Path, PathBuf};

const ARCHIVE: &str = "libyurdelmiz.a";

fn main() {
    println!("cargo::rerun-if-env-changed=YURDELMIZ_LIB_DIR");
    let folder = match env::var_os("YURDELMIZ_LIB_DIR") {
        Some(folder) => PathBuf::from(folder),
        None => Path::new(env!("CARGO_MANIFEST_DIR")).join("../../target/staticlib"),
    };
    let archive = folder.join(ARCHIVE);
    println!("cargo::rerun-if-changed={}", archive.display());
    if !archive.exists() {
        println!(
            "cargo::error=no {}: a command of ./yurdelmiz builds it, as `./yurdelmiz list tests/command/oscar10.labels`; or name its folder in YURDELMIZ_LIB_DIR",
            archive.display()
        );
        return;
    }
    println!("cargo::rustc-link-search=native={}", folder.display());
    println!("cargo::rustc-link-lib=static=yurdelmiz");
}
