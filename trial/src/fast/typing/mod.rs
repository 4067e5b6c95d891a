//! Typing a pattern: `read` makes items of the text in one pass, `complete` entries of the items; then the file.

mod complete;
mod read;

use super::refused;
use oracle::finding::Refusal;

/// The longest text.
const LONGEST: usize = 1024;

/// The bytes of the file before its entries.
const HEADER: usize = 6;

/// The length of the pattern file, or refusals 30 to 32.
pub fn type_pattern(text: &[u8], destination: &mut [u8]) -> Result<usize, Refusal> {
    if text.len() > LONGEST {
        return Err(refused(30));
    }
    let mut items = read::items(text)?;
    let entries = complete::entries(&mut items).ok_or(refused(32))?;
    let entries = entries.bytes();
    let length = HEADER + entries.len();
    let file = destination.get_mut(..length).ok_or(refused(32))?;
    file[..HEADER].copy_from_slice(&[b'P', b'A', b'T', 1, 0, (entries.len() / 4) as u8]);
    file[HEADER..].copy_from_slice(entries);
    Ok(length)
}
