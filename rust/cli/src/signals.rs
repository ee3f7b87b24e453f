//! A temporary file is removed on INT, TERM and HUP, and the process then ends by that signal.
//!
//! The standard library has no signals, so three functions of the C library are declared here. The handler
//! calls those alone, which may be called within one.

use std::ffi::{c_char, c_int, CString};
use std::ptr;
use std::sync::atomic::{AtomicBool, AtomicI32, AtomicPtr, Ordering::SeqCst};

extern "C" {
    fn signal(number: c_int, handler: usize) -> usize;
    fn raise(number: c_int) -> c_int;
    fn unlink(path: *const c_char) -> c_int;
}

const HUP: c_int = 1;
const INT: c_int = 2;
const TERM: c_int = 15;
/// A file beyond the limit on its size.
const XFSZ: c_int = 25;

const DEFAULT: usize = 0;
const IGNORED: usize = 1;

/// The file to remove, or null.
static TEMPORARY: AtomicPtr<c_char> = AtomicPtr::new(ptr::null_mut());
/// Whether a signal has to wait, and the one that waits, or 0.
static HELD: AtomicBool = AtomicBool::new(false);
static WAITING: AtomicI32 = AtomicI32::new(0);

extern "C" fn on_signal(number: c_int) {
    if HELD.load(SeqCst) {
        WAITING.store(number, SeqCst);
    } else {
        end(number);
    }
}

/// Removes the temporary file and ends the process by the signal, at the latest on return from its handler.
fn end(number: c_int) {
    let path = TEMPORARY.swap(ptr::null_mut(), SeqCst);
    // SAFETY: `path` is null or a string that `remove_on_signal` leaked.
    unsafe {
        if !path.is_null() {
            unlink(path);
        }
        signal(number, DEFAULT);
        raise(number);
    }
}

/// Called once, before anything is written.
pub fn prepare() {
    let handler: extern "C" fn(c_int) = on_signal;
    // SAFETY: the handler touches atomics and calls what may be called within one.
    unsafe {
        for number in [HUP, INT, TERM] {
            // Whoever started the command may have it ignore a signal, as nohup does.
            if signal(number, IGNORED) != IGNORED {
                signal(number, handler as usize);
            }
        }
        // A write is then refused, and told as any other.
        signal(XFSZ, IGNORED);
    }
}

/// Does what no signal may come between.
pub fn held<T>(action: impl FnOnce() -> T) -> T {
    HELD.store(true, SeqCst);
    let value = action();
    HELD.store(false, SeqCst);
    let waiting = WAITING.swap(0, SeqCst);
    if waiting != 0 {
        end(waiting);
    }
    value
}

/// The file that a signal removes from now on, or none.
pub fn remove_on_signal(path: Option<CString>) {
    TEMPORARY.store(path.map_or(ptr::null_mut(), CString::into_raw), SeqCst);
}
