//! Predecessors of a set of nodes, four nodes at a time: for each group of four nodes a table has the
//! predecessors of each of its 16 subsets.

use super::model::Model;

/// The predecessors of each subset of four neighbouring nodes.
type Group = [u64; 16];

pub struct Axes<'a> {
    groups: &'a [Group],
    /// Groups of an axis.
    each: usize,
    /// The set of axes that have tables, in order.
    axes: u8,
}

/// The words that tables for a set of axes take.
pub fn words(model: &Model, axes: u8) -> usize {
    axes.count_ones() as usize * 16 * group_count(model)
}

fn group_count(model: &Model) -> usize {
    model.node_count().div_ceil(4)
}

impl<'a> Axes<'a> {
    /// Fills as many words as `words` says.
    pub fn new(model: &Model, axes: u8, words: &'a mut [u64]) -> Axes<'a> {
        let (groups, _) = words.as_chunks_mut::<16>();
        let each = group_count(model);
        let used = (0..8).filter(|axis| axes >> axis & 1 == 1);
        for (axis, tables) in used.zip(groups.chunks_exact_mut(each)) {
            let (nodes, _) = model.predecessors(axis).as_chunks::<4>();
            for (table, four) in tables.iter_mut().zip(nodes) {
                *table = subsets(four);
            }
        }
        Axes { groups, each, axes }
    }

    /// The tables of an axis.
    pub fn table(&self, axis: u8) -> &'a [Group] {
        let before = self.axes & ((1 << (axis & 7)) - 1);
        &self.groups[before.count_ones() as usize * self.each..][..self.each]
    }
}

/// The union over each subset.
fn subsets(four: &[u64; 4]) -> Group {
    let mut unions = [0; 16];
    for subset in 1..16usize {
        unions[subset] = unions[subset & (subset - 1)] | four[subset.trailing_zeros() as usize];
    }
    unions
}

/// The nodes that the axis with this table leads from to a node of the set.
pub fn predecessors(table: &[Group], mut set: u64) -> u64 {
    let mut found = 0;
    for group in table {
        found |= group[set as usize % 16];
        set >>= 4;
    }
    found
}
