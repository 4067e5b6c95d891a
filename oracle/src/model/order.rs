//! Putting an older model file in order: document 02's Job 4.

use super::{Edge, parse_old};
use crate::finding::{Finding, Refusal};
use std::collections::BTreeSet;

/// Job 4, with what it does to the destination: "29, after those checks, when the destination is shorter than the new
/// file"; "success gives the new file's length and leaves bytes beyond it unchanged".
pub fn order(old: &[u8], destination: &mut [u8]) -> Finding {
    let new = match in_order(old) {
        Ok(new) => new,
        Err(refusal) => return Finding::Refused(refusal),
    };
    if destination.len() < new.len() {
        return Finding::Refused(Refusal { number: 29, place: 0 });
    }
    destination[..new.len()].copy_from_slice(&new);
    Finding::Written { length: new.len() as u16 }
}

/// Refusals 10 to 14, or the new file: "nodes and names copied as they are, each edge once, in Job 3's order".
pub fn in_order(old: &[u8]) -> Result<Vec<u8>, Refusal> {
    let mut model = parse_old(old)?;
    let each_once: BTreeSet<Edge> = model.edges.into_iter().collect();
    model.edges = each_once.into_iter().collect();
    Ok(model.to_bytes())
}
