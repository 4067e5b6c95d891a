//! Document 01, with the requests of document 02 that have landed, implemented for speed, to measure the proved
//! library against: no allocation but for edges to be sorted and for the items of a text, no code shared with the other
//! implementations but the type of a finding.
//!
//! - `pattern` reads a pattern in one pass over its entries;
//! - `model` reads a model file, `reach` finds what the root needs, `evaluate` works upward through those
//!   entries with sets of nodes as 64-bit words (`axes`, `classes` and `compare` are its parts);
//! - `order` puts an older model in order by sorting its edges;
//! - `typing` reads a text into a pattern file;
//! - `tableau` checks a tableau file, `walk` goes along its branches, `rules` concludes, and `line` packs
//!   a line of a branch into 64 bits.

mod axes;
mod classes;
mod compare;
mod evaluate;
mod line;
mod model;
mod order;
mod pattern;
mod reach;
mod rules;
mod tableau;
mod typing;
mod walk;

use oracle::finding::{Finding, Refusal};

/// Reads a pattern.
pub fn read(pattern: &[u8]) -> Finding {
    match pattern::parse(pattern) {
        Ok(entries) => Finding::Read { entries: entries.len() as u16 },
        Err(refusal) => Finding::Refused(refusal),
    }
}

/// The bytes of working area that judging a model of a pattern wants; 0 for one that is refused.
pub fn model_area(pattern: &[u8]) -> usize {
    pattern::parse(pattern).map_or(0, |entries| size_of::<evaluate::Set>() * pattern::node_count(entries))
}

/// Judges a model of a pattern.
pub fn judge_model(pattern: &[u8], model: &[u8], area: &mut [u8]) -> Finding {
    match model::judge(pattern, model, area) {
        Ok(0) => Finding::Unmet,
        Ok(nodes) => {
            Finding::Met { lowest: nodes.trailing_zeros() as u16, number: nodes.count_ones() as u16 }
        }
        Err(refusal) => Finding::Refused(refusal),
    }
}

/// Judges a tableau for a pattern.
pub fn judge_tableau(pattern: &[u8], tableau: &[u8], area: &mut [u8]) -> Finding {
    tableau::judge(pattern, tableau, area).unwrap_or_else(Finding::Refused)
}

/// Puts an older model in order.
pub fn order(old: &[u8], destination: &mut [u8]) -> Finding {
    match order::order(old, destination) {
        Ok(length) => Finding::Written { length: length as u16 },
        Err(refusal) => Finding::Refused(refusal),
    }
}

/// Reads a typed pattern into a pattern file.
pub fn type_pattern(text: &[u8], destination: &mut [u8]) -> Finding {
    match typing::type_pattern(text, destination) {
        Ok(length) => Finding::Written { length: length as u16 },
        Err(refusal) => Finding::Refused(refusal),
    }
}

/// A refusal whose place is 0.
fn refused(number: u16) -> Refusal {
    Refusal { number, place: 0 }
}

/// What follows the header of a file with this mark and version 1; refused by the number given for the mark
/// (or for a file shorter than its header), or by the next one for the version.
fn body<'a, const HEADER: usize>(
    bytes: &'a [u8],
    mark: &[u8; 3],
    number: u16,
) -> Result<(&'a [u8; HEADER], &'a [u8]), Refusal> {
    let (header, rest) = bytes.split_first_chunk::<HEADER>().ok_or(refused(number))?;
    if header[..3] != *mark {
        return Err(refused(number));
    }
    if header[3..5] != [1, 0] {
        return Err(refused(number + 1));
    }
    Ok((header, rest))
}
