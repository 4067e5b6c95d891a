//! Meaning: at which nodes of a model an entry holds, and where a path leads from a node.
//!
//! Entries refer to earlier ones only, so one sweep in entry order meets each entry once, however many
//! routes lead to it.

use super::{MAX_NODES, Model};
use crate::pattern::{Comparison, Entry, MAX_AXIS, MAX_CHANNEL, Path, Pattern};

/// A set of nodes: bit u for node u.
pub type NodeSet = u64;

/// For each entry of the pattern, at which nodes it holds (empty for a path entry).
pub fn where_holds(pattern: &Pattern, model: &Model) -> Vec<Vec<bool>> {
    let flags = |set: NodeSet| (0..model.nodes.len()).map(|node| contains(set, node)).collect();
    let sets = node_sets(pattern, model);
    let entries = pattern.entries.iter().zip(sets);
    entries.map(|(entry, set)| if entry.is_path() { Vec::new() } else { flags(set) }).collect()
}

/// For each entry of the pattern, the set of nodes at which it holds (no node for a path entry).
/// A model has 1 to 64 nodes, and its records are in range.
pub fn node_sets(pattern: &Pattern, model: &Model) -> Vec<NodeSet> {
    swept(pattern, model).holds
}

/// For each entry of the pattern, where it leads from each node of such a model (nowhere for a node entry).
pub fn path_ends(pattern: &Pattern, model: &Model) -> Vec<[NodeSet; MAX_NODES]> {
    swept(pattern, model).ends
}

fn swept<'a>(pattern: &Pattern, model: &'a Model) -> Sweep<'a> {
    let mut sweep = Sweep::new(model, pattern.entries.len());
    for entry in &pattern.entries {
        let (holds, ends) = if entry.is_path() {
            (0, sweep.at_each_node(|node| sweep.ends_of_entry(entry, node)))
        } else {
            (sweep.nodes_where(|node| sweep.holds_at(entry, node)), [0; MAX_NODES])
        };
        sweep.holds.push(holds);
        sweep.ends.push(ends);
    }
    sweep
}

/// The entries met so far, and the model in a form that answers quickly.
struct Sweep<'a> {
    model: &'a Model,
    /// By axis and node.
    successors: [[NodeSet; MAX_NODES]; MAX_AXIS as usize + 1],
    /// By channel and node: the nodes with an equal value.
    equals: [[NodeSet; MAX_NODES]; MAX_CHANNEL as usize + 1],
    /// Where a node entry holds; no node for a path entry.
    holds: Vec<NodeSet>,
    /// Where a path entry leads, by the node it starts from; nowhere for a node entry.
    ends: Vec<[NodeSet; MAX_NODES]>,
}

impl<'a> Sweep<'a> {
    fn new(model: &'a Model, entries: usize) -> Self {
        let mut sweep = Sweep {
            model,
            successors: [[0; MAX_NODES]; MAX_AXIS as usize + 1],
            equals: [[0; MAX_NODES]; MAX_CHANNEL as usize + 1],
            holds: Vec::with_capacity(entries),
            ends: Vec::with_capacity(entries),
        };
        for &(from, axis, to) in &model.edges {
            sweep.successors[axis as usize][from as usize] |= singleton(to as usize);
        }
        for channel in 0..sweep.equals.len() {
            let value = |node: usize| model.nodes[node].values[channel];
            sweep.equals[channel] =
                sweep.at_each_node(|node| sweep.nodes_where(|other| value(other) == value(node)));
        }
        sweep
    }

    /// Whether the node entry holds at the node.
    fn holds_at(&self, entry: &Entry, node: usize) -> bool {
        match *entry {
            Entry::Property(property) => self.model.nodes[node].properties >> property & 1 == 1,
            Entry::Name(name) => self.model.node_of(name) == node,
            Entry::Not(phi) => !contains(self.holds[phi], node),
            Entry::Both(phi, psi) => contains(self.holds[phi], node) && contains(self.holds[psi], node),
            Entry::Either(phi, psi) => contains(self.holds[phi], node) || contains(self.holds[psi], node),
            Entry::After(axis, phi) => self.successors[axis as usize][node] & self.holds[phi] != 0,
            Entry::Compare(comparison, channel, alpha, beta) => {
                self.compares(comparison, channel, self.ends_of(alpha, node), self.ends_of(beta, node))
            }
            Entry::Step(..) | Entry::Jump(..) | Entry::Test(..) | Entry::Fork(..) => false,
        }
    }

    /// Whether some node on the left and some node on the right have equal (unequal) values.
    fn compares(&self, comparison: Comparison, channel: u8, left: NodeSet, right: NodeSet) -> bool {
        let equals = &self.equals[channel as usize];
        members(left).any(|end| match comparison {
            Comparison::Same => equals[end] & right != 0,
            Comparison::Differ => !equals[end] & right != 0,
        })
    }

    /// "From node u: end leads to u", and any other path where its entry leads.
    fn ends_of(&self, path: Path, node: usize) -> NodeSet {
        path.map_or(singleton(node), |entry| self.ends[entry][node])
    }

    /// Where the path entry leads from the node.
    fn ends_of_entry(&self, entry: &Entry, node: usize) -> NodeSet {
        match *entry {
            Entry::Step(axis, alpha) => members(self.successors[axis as usize][node])
                .fold(0, |ends, successor| ends | self.ends_of(alpha, successor)),
            Entry::Jump(name, alpha) => self.ends_of(alpha, self.model.node_of(name)),
            Entry::Test(phi, alpha) if contains(self.holds[phi], node) => self.ends_of(alpha, node),
            Entry::Fork(alpha, beta) => self.ends_of(alpha, node) | self.ends_of(beta, node),
            _ => 0,
        }
    }

    /// The nodes of the model for which the question is answered yes.
    fn nodes_where(&self, question: impl Fn(usize) -> bool) -> NodeSet {
        let nodes = (0..self.model.nodes.len()).filter(|&node| question(node));
        nodes.fold(0, |set, node| set | singleton(node))
    }

    /// The set that is given for each node of the model.
    fn at_each_node(&self, set: impl Fn(usize) -> NodeSet) -> [NodeSet; MAX_NODES] {
        let mut sets = [0; MAX_NODES];
        for (node, place) in sets.iter_mut().enumerate().take(self.model.nodes.len()) {
            *place = set(node);
        }
        sets
    }
}

fn singleton(node: usize) -> NodeSet {
    1 << node
}

fn contains(set: NodeSet, node: usize) -> bool {
    set & singleton(node) != 0
}

/// The members of a set, lowest first.
fn members(set: NodeSet) -> impl Iterator<Item = usize> {
    std::iter::successors(Some(set), |&rest| Some(rest & rest.wrapping_sub(1)))
        .take_while(|&rest| rest != 0)
        .map(|rest| rest.trailing_zeros() as usize)
}
