//! Standard input, read as it comes.

use std::ffi::c_int;
use std::fmt::Display;
use std::fs::File;
use std::io::{self, Read};
use std::os::fd::AsFd;
use std::sync::atomic::{AtomicBool, Ordering::SeqCst};

use crate::failure::{words, Failure};

/// The operand that stands for it.
pub const OPERAND: &str = "-";

/// What a message calls it.
pub const NAME: &str = "standard input";

/// The name by which its file is found.
pub const PATH: &str = "/dev/stdin";

extern "C" {
    fn fcntl(file: c_int, command: c_int, ...) -> c_int;
}

const GET_FLAGS: c_int = 1;

/// Whether it was closed when the command began.
static CLOSED: AtomicBool = AtomicBool::new(false);

/// Called ahead of Rust's own start, which puts /dev/null in the place of what is closed: that would be a day
/// without records.
#[used]
#[link_section = ".init_array"]
static LOOK: extern "C" fn() = look;

extern "C" fn look() {
    // SAFETY: numbers only.
    let flags = unsafe { fcntl(0, GET_FLAGS) };
    CLOSED.store(flags == -1, SeqCst);
}

fn unread(why: impl Display) -> Failure {
    Failure::unread(format!("{NAME}: cannot be read: {why}"))
}

/// Standard input without a buffer, and with all its errors.
pub fn open() -> Result<File, Failure> {
    if CLOSED.load(SeqCst) {
        return Err(unread("it is closed"));
    }
    let own = io::stdin().as_fd().try_clone_to_owned();
    own.map(File::from).map_err(|error| unread(words(&error)))
}

/// The bytes of one read, none at the end. A read that a signal came into is made again.
pub fn read<'a>(input: &mut impl Read, room: &'a mut [u8]) -> Result<&'a [u8], Failure> {
    let number = loop {
        match input.read(room) {
            Ok(number) => break number,
            Err(error) if error.kind() == io::ErrorKind::Interrupted => {}
            Err(error) => return Err(unread(words(&error))),
        }
    };
    Ok(&room[..number])
}
