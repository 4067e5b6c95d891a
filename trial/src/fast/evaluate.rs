//! The nodes where the root holds: the entries that it reaches are evaluated upward, each once.

use super::axes::{self, Axes, predecessors};
use super::compare::Columns;
use super::model::Model;
use super::pattern::{AFTER, BOTH, EITHER, Entry, JUMP, NAME, NOT, PROPERTY, STEP, TEST, is_path};
use super::reach::Reach;
use std::iter::zip;

/// A set of nodes in the working area.
pub type Set = [u8; 8];

/// The nodes where the root holds. The working area has a set for each node entry.
pub fn root_nodes(entries: &[Entry], model: &Model, sets: &mut [Set]) -> u64 {
    let reach = Reach::from_root(entries);
    let columns = Columns::new(model, reach.channels);
    let sizes = Sizes { axes: axes::words(model, reach.axes), paths: (reach.paths + 1) * columns.count() };
    let job = Job { entries, model, reach: &reach, columns: &columns, sizes };
    match sizes.axes + sizes.paths {
        0..=256 => job.run(&mut [0; 256], sets),
        257..=2048 => job.run(&mut [0; 2048], sets),
        _ => job.run_large(sets),
    }
}

/// The words that the tables of the axes and the columns of the paths take.
#[derive(Clone, Copy)]
struct Sizes {
    axes: usize,
    paths: usize,
}

struct Job<'a> {
    entries: &'a [Entry],
    model: &'a Model<'a>,
    reach: &'a Reach,
    columns: &'a Columns,
    sizes: Sizes,
}

impl Job<'_> {
    /// Room for eight axes and 255 paths over 64 nodes, in a stack frame of its own.
    #[inline(never)]
    fn run_large(&self, sets: &mut [Set]) -> u64 {
        self.run(&mut [0; 8 * 16 * 16 + 255 * 64], sets)
    }

    /// Evaluates in words that are all zero.
    #[inline(never)]
    fn run(&self, words: &mut [u64], sets: &mut [Set]) -> u64 {
        let (tables, words) = words.split_at_mut(self.sizes.axes);
        let axes = Axes::new(self.model, self.reach.axes, tables);
        let mut known =
            Known { place: [0; 256], sets, nodes: 0, words, width: self.columns.count(), paths: 1 };
        self.columns.add_end(&mut known.words[..known.width]);
        let mut root = 0;
        for (number, &entry) in self.entries.iter().enumerate() {
            let is_node = !is_path(entry[0]);
            if !self.reach.needs(number) {
                known.nodes += is_node as usize;
            } else if is_node {
                root = self.node_entry(entry, &axes, &known);
                known.place[number & 255] = known.nodes as u8;
                known.add_set(root);
            } else {
                known.place[number & 255] = known.paths as u8;
                self.path_entry(entry, &axes, &mut known);
            }
        }
        root
    }

    /// The nodes where a node entry holds.
    fn node_entry(&self, [kind, x, y, z]: Entry, axes: &Axes, known: &Known) -> u64 {
        match kind {
            PROPERTY => self.model.with_property(x),
            NAME => 1 << self.model.node(x),
            NOT => self.model.all() & !known.set(x),
            BOTH => known.set(x) & known.set(y),
            EITHER => known.set(x) | known.set(y),
            AFTER => predecessors(axes.table(x), known.set(y)),
            _ => self.columns.compare(kind, x, known.columns(y), known.columns(z)),
        }
    }

    /// Adds the columns of a path entry.
    fn path_entry(&self, [kind, x, y, _]: Entry, axes: &Axes, known: &mut Known) {
        match kind {
            STEP => {
                let table = axes.table(x);
                known.add_path(y, |nodes| predecessors(table, nodes));
            }
            JUMP => {
                let (node, all) = (self.model.node(x), self.model.all());
                known.add_path(y, |nodes| if nodes >> node & 1 == 1 { all } else { 0 });
            }
            TEST => {
                let tested = known.set(x);
                known.add_path(y, |nodes| nodes & tested);
            }
            _ => known.add_union(x, y),
        }
    }
}

/// The entries evaluated so far.
struct Known<'a> {
    /// By entry number, the place of a node entry among the sets, of a path among the columns; 0 for the end of path.
    place: [u8; 256],
    /// The working area: the sets of all node entries in their order.
    sets: &'a mut [Set],
    /// Node entries so far, needed or not.
    nodes: usize,
    /// The columns of the paths that are needed, the end of path first.
    words: &'a mut [u64],
    width: usize,
    /// Paths so far.
    paths: usize,
}

impl Known<'_> {
    /// Where a node entry holds.
    fn set(&self, entry: u8) -> u64 {
        u64::from_le_bytes(self.sets[self.place[entry as usize] as usize])
    }

    fn add_set(&mut self, nodes: u64) {
        self.sets[self.nodes] = nodes.to_le_bytes();
        self.nodes += 1;
    }

    fn columns(&self, path: u8) -> &[u64] {
        &self.words[self.place[path as usize] as usize * self.width..][..self.width]
    }

    /// The columns of two earlier paths, and those of the new one.
    fn with_new(&mut self, first: u8, second: u8) -> (&[u64], &[u64], &mut [u64]) {
        let (done, free) = self.words.split_at_mut(self.paths * self.width);
        let columns = |path: u8| &done[self.place[path as usize] as usize * self.width..][..self.width];
        self.paths += 1;
        (columns(first), columns(second), &mut free[..self.width])
    }

    /// Adds a path whose columns are made from those of another.
    fn add_path(&mut self, rest: u8, made: impl Fn(u64) -> u64) {
        let (rest, _, new) = self.with_new(rest, rest);
        for (new, &nodes) in zip(new, rest) {
            *new = made(nodes);
        }
    }

    /// Adds a fork.
    fn add_union(&mut self, first: u8, second: u8) {
        let (first, second, new) = self.with_new(first, second);
        for (new, (first, second)) in zip(new, zip(first, second)) {
            *new = first | second;
        }
    }
}
