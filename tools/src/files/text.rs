//! The text of a typed pattern that a tool is given.

use super::unreadable;
use oracle::typed::MAX_TEXT;
use std::io::{self, Read};
use std::path::{Path, PathBuf};

/// Where a text is to be found.
#[derive(Clone, Debug)]
pub enum Text {
    /// Among the tool's arguments.
    Argument(Vec<u8>),
    /// In a file; `-` is standard input.
    File(PathBuf),
}

impl Text {
    /// The text, or a message that names its file. A line feed at the end of a file is the editor's and no part of it.
    pub fn read(&self) -> Result<Vec<u8>, String> {
        let mut text = match self {
            Text::Argument(text) => return Ok(text.clone()),
            Text::File(file) => begin(file).map_err(|error| unreadable(&self.name(), &error))?,
        };
        text.pop_if(|last| *last == b'\n');
        Ok(text)
    }

    /// The file, if it is one.
    pub fn file(&self) -> Option<&Path> {
        match self {
            Text::File(file) if !is_standard_input(file) => Some(file),
            _ => None,
        }
    }

    /// What messages call it.
    pub fn name(&self) -> String {
        match self {
            Text::Argument(_) => "the text".to_string(),
            Text::File(file) if is_standard_input(file) => "standard input".to_string(),
            Text::File(file) => super::name(file),
        }
    }
}

fn is_standard_input(file: &Path) -> bool {
    file.as_os_str() == "-"
}

/// The file's bytes, or so many of them that the text is too long even without a line feed.
fn begin(file: &Path) -> io::Result<Vec<u8>> {
    let most = MAX_TEXT + 2;
    if !is_standard_input(file) {
        return super::begin(file, most);
    }
    let mut bytes = Vec::new();
    io::stdin().lock().take(most as u64).read_to_end(&mut bytes)?;
    Ok(bytes)
}
