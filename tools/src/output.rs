//! What a tool prints.

use std::fmt::Display;
use std::io::{self, ErrorKind, Write};

/// Prints a text at once. Gives whether standard output still has a reader: one who closed the pipe has seen
/// enough, which is no error.
pub fn print(text: impl Display) -> Result<bool, String> {
    let mut stdout = io::stdout().lock();
    match write!(stdout, "{text}").and_then(|()| stdout.flush()) {
        Ok(()) => Ok(true),
        Err(error) if error.kind() == ErrorKind::BrokenPipe => Ok(false),
        Err(error) => Err(format!("standard output: {error}")),
    }
}

/// Prints a line about a file that was written. It is there by then: that nobody can be told of it is no failure.
pub fn tell(tool: &str, line: &str) {
    if let Err(message) = print(format!("{line}\n")) {
        complain(&format!("{tool}: {message}"));
    }
}

/// Writes a message on standard error. That nobody takes it changes nothing.
pub fn complain(message: &str) {
    let _ = writeln!(io::stderr(), "{message}");
}
