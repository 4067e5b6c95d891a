//! Comparing where two paths lead.
//!
//! A path's ends are kept turned round, as columns: for each class of nodes that agree on all channels in
//! use, the set of nodes from which the path leads into the class. A comparison on one channel merges the
//! columns whose classes have the same value there.

use super::classes::Classes;
use super::model::Model;
use super::pattern::SAME;
use std::iter::zip;

pub struct Columns {
    /// Nodes by their values on all channels in use.
    nodes: Classes,
    /// For each channel that tells fewer nodes apart: the columns by their value there.
    merged: [Option<Classes>; 4],
}

/// The 16 bits of each of these channels among a node's values.
fn bits_of(channels: u8) -> u64 {
    (0..4).filter(|channel| channels >> channel & 1 == 1).map(|channel| 0xffff << (16 * channel)).sum()
}

impl Columns {
    /// The columns for a set of channels; none if no channel is in use, and then no path either.
    pub fn new(model: &Model, channels: u8) -> Columns {
        let classes = |channels: u8| {
            let bits = bits_of(channels);
            Classes::new(model.values().map(|values| values & bits).take(64 * usize::from(channels != 0)))
        };
        let nodes = classes(channels);
        let merged = [1, 2, 4, 8].map(|channel| {
            if channels & channel == 0 || channels == channel {
                return None;
            }
            let by_value = classes(channel);
            (by_value.count < nodes.count).then(|| nodes.grouped(&by_value))
        });
        Columns { nodes, merged }
    }

    /// The number of columns.
    pub fn count(&self) -> usize {
        self.nodes.count
    }

    /// The columns of the end of path, added to empty ones: from a node it leads to that node.
    pub fn add_end(&self, columns: &mut [u64]) {
        for (node, &column) in self.nodes.classes().iter().enumerate() {
            columns[column as usize] |= 1 << node;
        }
    }

    /// The nodes where same (differ) of two paths holds on a channel.
    pub fn compare(&self, kind: u8, channel: u8, left: &[u64], right: &[u64]) -> u64 {
        match &self.merged[channel as usize % 4] {
            None => compare(kind, left, right),
            Some(classes) => {
                let (mut lefts, mut rights) = ([0; 64], [0; 64]);
                for (&class, (left, right)) in zip(classes.classes(), zip(left, right)) {
                    lefts[class as usize % 64] |= left;
                    rights[class as usize % 64] |= right;
                }
                compare(kind, &lefts[..classes.count], &rights[..classes.count])
            }
        }
    }
}

/// The comparison of columns that stand for different values.
fn compare(kind: u8, left: &[u64], right: &[u64]) -> u64 {
    if kind == SAME {
        zip(left, right).fold(0, |found, (left, right)| found | left & right)
    } else {
        differ(left, right)
    }
}

/// Both paths lead somewhere, and not all ends have one value: then an end of one path and an end of the
/// other have unequal values.
fn differ(left: &[u64], right: &[u64]) -> u64 {
    let (mut lefts, mut rights, mut two_values) = (0, 0, 0);
    for (&left, &right) in zip(left, right) {
        two_values |= (lefts | rights) & (left | right);
        lefts |= left;
        rights |= right;
    }
    lefts & rights & two_values
}
