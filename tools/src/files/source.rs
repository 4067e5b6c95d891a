//! Where a pattern comes from: a pattern file, or a text that is typed.

use super::text::Text;
use crate::agreed;
use crate::command::Failure;
use oracle::explain::Conclusion;
use oracle::explain::refusal::{of_text, shown};
use oracle::finding::Refusal;
use oracle::typed::parse;
use std::os::unix::ffi::OsStrExt;
use std::path::{Path, PathBuf};

/// The longest text that a page is called by.
const SHORT: usize = 60;

pub enum Source {
    File(PathBuf),
    Text(Text),
}

/// What was read.
pub enum Given {
    /// The bytes of a pattern file, which a text may have been typed into.
    Pattern(Vec<u8>),
    /// A text that isn't one of a pattern.
    Refused { text: Vec<u8>, refusal: Refusal, conclusion: Conclusion },
}

impl Source {
    /// The pattern. A text is typed by the proved library.
    pub fn read(&self) -> Result<Given, Failure> {
        let text = match self {
            Source::File(file) => return read_file(file),
            Source::Text(text) => text.read()?,
        };
        Ok(match agreed::type_pattern(&text)? {
            Ok(file) => Given::Pattern(file),
            Err(refusal) => Given::Refused { conclusion: of_text(&text, refusal), refusal, text },
        })
    }

    /// The file, if it is one.
    pub fn file(&self) -> Option<&Path> {
        match self {
            Source::File(file) => Some(file),
            Source::Text(text) => text.file(),
        }
    }

    /// What a page calls it: a text that was typed on the line is called by itself, unless it is long.
    pub fn title(&self) -> String {
        match self {
            Source::Text(Text::Argument(text)) if text.len() <= SHORT => shown(text),
            Source::Text(Text::Argument(_)) => "a typed pattern".to_string(),
            _ => self.name(),
        }
    }

    /// What messages call it.
    pub fn name(&self) -> String {
        match self {
            Source::File(file) => super::name(file),
            Source::Text(text) => text.name(),
        }
    }
}

/// The pattern file. Who forgot to say that a text comes, where there is no such file, is reminded.
fn read_file(file: &Path) -> Result<Given, Failure> {
    let read = super::read(file).map(Given::Pattern);
    read.map_err(|failure| match parse(file.as_os_str().as_bytes()) {
        Ok(_) if !file.exists() => {
            Failure { message: failure.message + "\nA typed pattern stands behind -e.", ..failure }
        }
        _ => failure,
    })
}
