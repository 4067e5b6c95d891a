//! Files that the tool reads and writes: `source` is where a pattern comes from, `text` where that of a typed one does,
//! `target` the file that is written.

pub mod source;
pub mod target;
pub mod text;

use crate::arguments::quoted;
use crate::command::Failure;
use oracle::tableau::LONGEST;
use std::fs::File;
use std::io::{self, Read};
use std::path::Path;

/// The bytes of a pattern or proposal. Of a file that is longer than any of them only so many as show that it is.
pub fn read(file: &Path) -> Result<Vec<u8>, Failure> {
    Ok(begin(file, LONGEST + 1).map_err(|error| unreadable(&name(file), &error))?)
}

/// What messages call a file: quoted if its name is empty, or has what a terminal may not be sent.
pub fn name(file: &Path) -> String {
    match file.display().to_string() {
        odd if odd.is_empty() || odd.chars().any(char::is_control) => quoted(file.as_os_str()),
        plain => plain,
    }
}

/// The file's bytes, this many at most.
fn begin(file: &Path, most: usize) -> io::Result<Vec<u8>> {
    let mut bytes = Vec::new();
    File::open(file)?.take(most as u64).read_to_end(&mut bytes)?;
    Ok(bytes)
}

/// A message that names the file.
fn unreadable(name: &str, error: &io::Error) -> String {
    format!("{name}: can't be read: {error}")
}
