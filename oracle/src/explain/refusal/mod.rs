//! A refusal in a sentence: what its number means, and what stands at its place.

mod file;
mod names;
mod step;
mod text;

pub(super) use file::of_tableau;
pub use file::{file_length, kind, of_model, of_pattern};
pub(super) use names::of_names;
pub(super) use step::of_step;
pub use text::{of_text, shown};

use super::Conclusion;
use crate::finding::{Finding, Refusal};

/// The refusal, what it points at and what its number means, with what was found at its place.
fn refused(refusal: Refusal, detail: &str) -> Conclusion {
    let Refusal { number, place } = refusal;
    let at = match number {
        4..=8 => format!("entry {place}"),
        13 => format!("name record {place}"),
        14 | 28 => format!("edge record {place}"),
        19..=25 => format!("step {place}"),
        27 => format!("name n{place}"),
        30 | 31 => format!("byte {place}"),
        _ => String::new(),
    };
    let meaning = MEANINGS[number as usize - 1];
    Conclusion { at, ..Conclusion::found(Finding::Refused(refusal), meaning) }.with(detail)
}

/// By refusal number, from 1 to 32: what documents 01 and 02 say of it, and with 27 what may have happened. Of 30, what
/// they say of its places: `text` tells it from a text that is too long.
const MEANINGS: [&str; 32] = [
    "the pattern file has under 6 bytes or doesn't begin with PAT",
    "the pattern file's version isn't 1",
    "the number of entries is zero, or the pattern file's length isn't 6 + 4 for each",
    "its kind isn't one of 1 to 12",
    "a field is out of range, or an unused one isn't zero",
    "a reference isn't an earlier entry of the wanted sort",
    "it equals an earlier entry",
    "it is the root, and is a path",
    "the working area is too short",
    "the model file has under 9 bytes or doesn't begin with DAT",
    "the model file's version isn't 1",
    "a count is out of range (nodes 1 to 64, names up to 128, edges up to 4096), or the length doesn't fit them",
    "the name or the node is out of range, or an earlier record has the name",
    "a field is out of range",
    "the tableau file has under 8 bytes or doesn't begin with TAB",
    "the tableau file's version isn't 1",
    "the number of steps isn't 1 to 4096, or the tableau file's length isn't 8 + 6 for each",
    "the start name is over 127 or used in the pattern",
    "its rule isn't one of 1 to 25",
    "a line that it uses isn't on the branch, or a field that its rule doesn't use isn't zero",
    "the lines or the argument don't fit the rule",
    "the name isn't fresh",
    "it would bring the branch over 1024 lines",
    "it forks while 64 right sides already wait",
    "all branches are already closed",
    "the steps are at an end and a branch is still open",
    "the pattern uses it and the model doesn't list it (was its meter removed?)",
    "it doesn't come after the record before it (edges rise by from, then axis, then to, each once)",
    "the destination is shorter than the new file",
    "no typed pattern has that there",
    "the number is out of range",
    "the text makes over 255 different entries, or the destination is shorter than the pattern file",
];
