//! Models at the limits: short files, counts and records at the ends of their ranges.

use super::{cut_short, misjudge_length, spoil_header};
use crate::generate::disorder::fall;
use oracle::pattern::Pattern;
use oracle::random::Random;
use std::collections::BTreeSet;

/// Writes a model file at a limit or one over, for the pattern: it lists the pattern's names, if it has so many.
pub fn model(random: &mut Random, pattern: &Pattern, file: &mut Vec<u8>) {
    match random.below(16) {
        0 | 1 => {
            counts(random, pattern, file, [1, 0, 0]);
            cut_short(random, file);
        }
        2 | 3 => {
            counts(random, pattern, file, [1, 1, 1]);
            spoil_header(random, file);
        }
        4 => longest(random, pattern, file),
        5..9 => {
            let nodes = random.pick(&[0, 1, 63, 64, 65, 255]);
            let names = random.pick(&[0, 1, 127, 128, 129, 255]);
            let edges = random.pick(&[0, 1, 2, 255, 256]);
            counts(random, pattern, file, [nodes, names, edges]);
            misjudge_length(random, file);
        }
        _ => {
            let nodes = random.pick(&[1, 2, 63, 64]);
            let (names, edges) = (random.between(1, 5), random.between(1, 5));
            counts(random, pattern, file, [nodes, names, edges]);
            border_record(random, file, [nodes, names, edges]);
        }
    }
}

/// Writes a model file of 64 nodes, 128 names and 4,095 to 4,097 edges, now and then with a record at fault or of
/// another length.
pub fn longest(random: &mut Random, pattern: &Pattern, file: &mut Vec<u8>) {
    let edges = random.pick(&[4095, 4096, 4096, 4097]);
    counts(random, pattern, file, [64, 128, edges]);
    match random.below(4) {
        0 => border_record(random, file, [64, 128, edges]),
        1 => fallen_edge(random, file, edges),
        _ => {}
    }
    misjudge_length(random, file);
}

/// A file of so many nodes, names and edges, as long as they make it.
fn counts(random: &mut Random, pattern: &Pattern, file: &mut Vec<u8>, [nodes, names, edges]: [usize; 3]) {
    file.clear();
    file.extend(b"DAT\x01\x00");
    file.extend([nodes as u8, names as u8]);
    file.extend((edges as u16).to_le_bytes());
    for _ in 0..nodes {
        file.extend((random.below(8) as u32).to_le_bytes());
        file.extend((0..4).flat_map(|_| (random.below(3) as u16).to_le_bytes()));
    }
    let down = random.once_in(2);
    let node = |random: &mut Random| random.below(nodes.max(1)) as u8;
    for name in in_turn(pattern, down).take(names) {
        file.extend([name, node(random)]);
    }
    file.extend(rising(random, nodes, edges).as_flattened());
}

/// So many edges in their order, each once; if there aren't so many between the nodes, the last is repeated.
fn rising(random: &mut Random, nodes: usize, edges: usize) -> Vec<[u8; 3]> {
    let all = 8 * nodes * nodes;
    let mut chosen = BTreeSet::new();
    while chosen.len() < edges.min(all) {
        chosen.insert(random.below(all));
    }
    let fields = |edge: usize| [edge / nodes / 8, edge / nodes % 8, edge % nodes].map(|field| field as u8);
    let mut records: Vec<[u8; 3]> = chosen.into_iter().map(fields).collect();
    records.resize(edges, records.last().copied().unwrap_or_default());
    records
}

/// Every name once, the pattern's first, then the others from 0 up or from 127 down; then what is out of range.
fn in_turn(pattern: &Pattern, down: bool) -> impl Iterator<Item = u8> {
    let others = (0..128).map(move |name| if down { 127 - name } else { name });
    pattern.names().into_iter().chain(others.filter(|&name| !pattern.uses(name))).chain(128..=255)
}

/// Makes an edge of a model of 64 nodes not come after the one before it, as often as not the last.
fn fallen_edge(random: &mut Random, file: &mut [u8], edges: usize) {
    let first = file.len() - 3 * edges;
    let place = if random.once_in(2) { edges - 1 } else { random.between(1, edges - 1) };
    fall(random, file[first..].as_chunks_mut().0, 64, place);
}

/// Sets one field of one name or edge record to the end of its range or one over, or makes a name that
/// of another record.
fn border_record(random: &mut Random, file: &mut [u8], [nodes, names, edges]: [usize; 3]) {
    let first_name = 9 + 12 * nodes;
    let first_edge = first_name + 2 * names;
    let name = first_name + 2 * random.below(names);
    let edge = first_edge + 3 * random.below(edges);
    let node = random.pick(&[nodes - 1, nodes, 255]) as u8;
    match random.below(6) {
        0 => file[name] = random.pick(&[127, 128, 255]),
        1 => file[name + 1] = node,
        2 => file[name] = file[first_name + 2 * random.below(names)],
        3 => file[edge] = node,
        4 => file[edge + 1] = random.pick(&[7, 8, 255]),
        _ => file[edge + 2] = node,
    }
}
