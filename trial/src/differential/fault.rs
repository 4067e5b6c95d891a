//! Names the input when the program is ended by an access outside the lent slices.

use std::cell::Cell;
use std::ffi::{c_int, c_void};
use std::io::Write;
use std::sync::OnceLock;
use tools::progress;

/// The calls of POSIX that it takes, with their values on Linux.
mod posix {
    use super::{c_int, c_void};

    pub const SIGSEGV: c_int = 11;
    pub const STDERR: c_int = 2;

    unsafe extern "C" {
        /// Has the function called when the signal comes.
        pub fn signal(signal: c_int, handler: extern "C" fn(c_int)) -> usize;
        /// Writes bytes to a file; how many were written, or -1.
        pub fn write(file: c_int, bytes: *const c_void, length: usize) -> isize;
        /// Ends the program at once.
        pub fn _exit(status: c_int) -> !;
    }
}

thread_local! {
    /// The number of the input that the thread is at.
    static NUMBER: Cell<u64> = const { Cell::new(0) };
}

/// What takes the run's progress away, so that the report has a line of its own.
static ERASURE: OnceLock<&str> = OnceLock::new();

/// Notes which input the thread is at.
pub fn note(number: u64) {
    NUMBER.set(number);
}

/// From now on an access to a page that may not be touched is reported with the input's number.
pub fn watch() {
    ERASURE.get_or_init(progress::erasure);
    // SAFETY: the handler only reads a number of its thread and what is set by now, writes to its own stack
    // and makes two calls that POSIX allows in a handler.
    unsafe { posix::signal(posix::SIGSEGV, report) };
}

extern "C" fn report(_signal: c_int) {
    let mut text = [0; 100];
    let mut rest = &mut text[..];
    let number = NUMBER.get();
    let erasure = ERASURE.get().unwrap_or(&"");
    let written = writeln!(rest, "{erasure}differential: access outside the lent bytes, input {number}");
    let length = if written.is_ok() { 100 - rest.len() } else { 0 };
    // SAFETY: the bytes are those of `text`, which has that length at least.
    unsafe {
        posix::write(posix::STDERR, text.as_ptr().cast(), length);
        posix::_exit(1)
    }
}
