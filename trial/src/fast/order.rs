//! Putting an older model in order: refusals 10 to 14, the edges sorted and each kept once, 29, and the new file.

use super::model::{File, rank};
use super::refused;
use oracle::finding::Refusal;

/// The length of the new file, or refusals 10 to 14 and 29.
pub fn order(old: &[u8], destination: &mut [u8]) -> Result<usize, Refusal> {
    let file = File::parse(old)?;
    file.names()?;
    let ranks = ordered(&file)?;
    let before = old.len() - 3 * file.edges.len();
    let length = before + 3 * ranks.len();
    let new = destination.get_mut(..length).ok_or(refused(29))?;
    let (head, edges) = new.split_at_mut(before);
    head.copy_from_slice(&old[..before]);
    head[7..9].copy_from_slice(&(ranks.len() as u16).to_le_bytes());
    for (edge, rank) in edges.as_chunks_mut().0.iter_mut().zip(ranks) {
        *edge = [(rank >> 9) as u8, (rank >> 6 & 7) as u8, (rank & 63) as u8];
    }
    Ok(length)
}

/// The edges as numbers that rise, each once, or refusal 14.
fn ordered(file: &File) -> Result<Vec<u16>, Refusal> {
    let mut ranks = Vec::with_capacity(file.edges.len());
    for (place, edge) in file.edges.iter().enumerate() {
        ranks.push(rank(edge, place, file.records.len())?);
    }
    ranks.sort_unstable();
    ranks.dedup();
    Ok(ranks)
}
