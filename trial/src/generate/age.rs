//! Older model files, whose edges stand in any order and are repeated, made of files whose edges rise.

use oracle::model::MAX_EDGES;
use oracle::pattern::MAX_AXIS;
use oracle::random::Random;

/// An edge record.
type Edge = [u8; 3];

/// Puts the edges of a model file out of order and repeats some, once or up to three times, as far as 4,096 records go;
/// now and then one becomes the first or the last that there can be. Leaves a file alone that has no edges, or not as
/// many as it says.
pub fn age(random: &mut Random, file: &mut Vec<u8>) {
    let Some(first) = first_edge(file) else { return };
    let mut edges = file[first..].as_chunks().0.to_vec();
    for _ in 0..random.between(1, 3) {
        jumble(random, &mut edges);
        edges.truncate(MAX_EDGES);
    }
    if random.once_in(8) {
        let (last, place) = (file[5].saturating_sub(1), random.below(edges.len()));
        edges[place] = random.pick(&[[0; 3], [last, MAX_AXIS, last]]);
    }
    file.truncate(first);
    file[7..9].copy_from_slice(&(edges.len() as u16).to_le_bytes());
    file.extend(edges.as_flattened());
}

/// Where the edges of a model file begin, if it has edges, no more than a model may have, and ends with them.
pub fn first_edge(file: &[u8]) -> Option<usize> {
    let header: [u8; 9] = *file.first_chunk()?;
    let edges = u16::from_le_bytes([header[7], header[8]]) as usize;
    let first = 9 + 12 * header[5] as usize + 2 * header[6] as usize;
    ((1..=MAX_EDGES).contains(&edges) && file.len() == first + 3 * edges).then_some(first)
}

/// Changes the order of edges, of which there is at least one, or repeats some.
fn jumble(random: &mut Random, edges: &mut Vec<Edge>) {
    let last = edges.len() - 1;
    let (one, other) = (random.between(0, last), random.between(0, last));
    match random.below(10) {
        0 => edges.reverse(),
        1 | 2 => random.shuffle(edges),
        3 => edges.swap(one, other),
        4 => edges[one.min(other)..=one.max(other)].rotate_left(1),
        5 => edges.insert(one + 1, edges[one]),
        6 => edges.insert(one, edges[other]),
        7 => edges.extend_from_within(one..),
        8 => edges.extend_from_within(..),
        _ => {
            let times = if random.once_in(8) { MAX_EDGES } else { random.between(1, 8) };
            edges.splice(one..one, vec![edges[other]; times]);
        }
    }
}
