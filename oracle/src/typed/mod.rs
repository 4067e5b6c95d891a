//! Typing a pattern: document 02's Job 7. `parse` reads a text as a tree, `entries` makes the entries of the tree, and
//! `spell` goes the other way, from a pattern to its text. `composed` says where a tree holds, without entries.

mod composed;
mod entries;
mod parse;
mod spell;

pub use composed::holds;
pub use entries::entries_of;
pub use parse::{Fault, parse};
pub use spell::{sign, spell};

use crate::finding::Refusal;
use crate::pattern::{Comparison, MAX_ENTRIES, Pattern};

/// The bytes of the longest text.
pub const MAX_TEXT: usize = 1024;

/// A node text, as it stands.
#[derive(Clone, Debug, PartialEq, Eq)]
pub enum NodeText {
    Property(u8),
    Name(u8),
    Not(Box<NodeText>),
    Both(Box<NodeText>, Box<NodeText>),
    Either(Box<NodeText>, Box<NodeText>),
    After(u8, Box<NodeText>),
    Compare(Comparison, u8, RowText, RowText),
}

/// "Path text is a possibly empty row."
pub type RowText = Vec<PartText>;

/// A part of a row.
#[derive(Clone, Debug, PartialEq, Eq)]
pub enum PartText {
    Step(u8),
    Jump(u8),
    Test(NodeText),
    Brace(RowText, RowText),
}

/// The pattern file of a text, for a destination of so many bytes: 30, then 31, then "32, last, over 255 different
/// entries or a destination too short".
pub fn type_pattern(text: &[u8], room: usize) -> Result<Vec<u8>, Refusal> {
    let entries = entries_of(&parse(text)?);
    if entries.len() > MAX_ENTRIES {
        return Err(Refusal { number: 32, place: 0 });
    }
    let file = Pattern { entries }.to_bytes();
    if file.len() > room {
        return Err(Refusal { number: 32, place: 0 });
    }
    Ok(file)
}
