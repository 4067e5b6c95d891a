//! Random models that judging accepts, but for a name of the pattern that some of them lack.

use super::patterns::Vocabulary;
use oracle::model::{Edge, Model, Node};
use oracle::pattern::Pattern;
use oracle::random::Random;

/// The proved judgement has a channel's values in so many buckets, by their rest when divided by this number.
pub const BUCKETS: u16 = 61;

/// A model of a random size for the pattern: mostly of a few nodes, seldom of up to 64 with up to 4,096 edges.
pub fn random(random: &mut Random, pattern: &Pattern) -> Model {
    let (nodes, edges) = match random.below(200) {
        0 => (random.between(32, 64), random.between(0, 4096)),
        1..10 => (random.between(8, 64), random.between(0, 200)),
        _ => (random.between(1, 5), random.between(0, 15)),
    };
    let vocabulary = Vocabulary::random(random);
    of_size(random, pattern, vocabulary, [nodes, edges])
}

/// A model of so many nodes, and of so many edges or fewer, or of edges in runs.
pub fn of_size(
    random: &mut Random,
    pattern: &Pattern,
    vocabulary: Vocabulary,
    [nodes, edges]: [usize; 2],
) -> Model {
    let edges = if random.once_in(4) {
        in_runs(random, vocabulary, nodes)
    } else {
        rising((0..edges).map(|_| edge(random, vocabulary, nodes)))
    };
    Model {
        nodes: (0..nodes).map(|_| node(random)).collect(),
        names: names(random, pattern, vocabulary, nodes),
        edges,
    }
}

/// The most nodes that one leads to on an axis, in runs: 64 nodes of eight axes have 4,096 edges then.
const MOST_LED: usize = 8;

/// Edges by which neighbouring nodes mostly lead to the same nodes on an axis: of few sets of nodes one is taken, for
/// some nodes or for all.
fn in_runs(random: &mut Random, vocabulary: Vocabulary, nodes: usize) -> Vec<Edge> {
    let mut edges = Vec::new();
    let often = random.pick(&[2, 4, 16, 4096]);
    for axis in 0..vocabulary.axes as u8 {
        let sets: [Vec<u8>; 3] = [(); 3].map(|()| {
            let led = random.below(MOST_LED + 1);
            (0..led).map(|_| random.below(nodes) as u8).collect()
        });
        let mut set = 0;
        for from in 0..nodes as u8 {
            if random.once_in(often) {
                set = random.below(sets.len());
            }
            edges.extend(sets[set].iter().map(|&to| (from, axis, to)));
        }
    }
    rising(edges.into_iter())
}

/// A node whose values are often those of other nodes, or share a bucket with them.
fn node(random: &mut Random) -> Node {
    let properties = if random.once_in(8) { random.number() as u32 } else { random.below(8) as u32 };
    let value: fn(&mut Random) -> u16 = match random.below(8) {
        0 => |random| random.number() as u16,
        1 => |random| BUCKETS * random.below(3) as u16,
        _ => |random| random.below(2) as u16,
    };
    Node { properties, values: [0; 4].map(|_| value(random)) }
}

/// Records of different names in any order: the pattern's, now and then without one of them or without some, and
/// up to five that it doesn't use.
fn names(random: &mut Random, pattern: &Pattern, vocabulary: Vocabulary, nodes: usize) -> Vec<(u8, u8)> {
    let mut names: Vec<u8> = pattern.names().into_iter().collect();
    match random.below(16) {
        0..2 if !names.is_empty() => {
            names.swap_remove(random.below(names.len()));
        }
        2..4 => names.retain(|_| random.once_in(2)),
        _ => {}
    }
    for _ in 0..random.below(6) {
        let other = random.below(vocabulary.names) as u8;
        if !pattern.uses(other) && !names.contains(&other) {
            names.push(other);
        }
    }
    random.shuffle(&mut names);
    names.into_iter().map(|name| (name, random.below(nodes) as u8)).collect()
}

/// The edges in their order, each once.
fn rising(edges: impl Iterator<Item = Edge>) -> Vec<Edge> {
    let mut edges: Vec<Edge> = edges.collect();
    edges.sort_unstable();
    edges.dedup();
    edges
}

fn edge(random: &mut Random, vocabulary: Vocabulary, nodes: usize) -> Edge {
    (random.below(nodes) as u8, random.below(vocabulary.axes) as u8, random.below(nodes) as u8)
}

#[cfg(test)]
mod tests {
    use super::BUCKETS;

    #[test]
    fn buckets_are_those_of_the_proved_judgement() {
        let values = include_str!("../../../crates/model_tables/src/values.rt");
        assert!(values.contains(&format!("const BUCKETS: u16 = {BUCKETS};")));
        assert!(values.contains("value % BUCKETS"));
    }
}
