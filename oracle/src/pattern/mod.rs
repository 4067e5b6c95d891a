//! Reading a pattern: `file` reads and writes the file, this file says what a pattern is.

mod file;

pub use file::{ENTRY_BYTES, HEADER_BYTES, parse};

use crate::finding::Finding;
use std::collections::BTreeSet;

/// The largest property, name, axis and channel.
pub const MAX_PROPERTY: u8 = 31;
pub const MAX_NAME: u8 = 127;
pub const MAX_AXIS: u8 = 7;
pub const MAX_CHANNEL: u8 = 3;

/// The entries of the largest pattern, and the bytes of its file.
pub const MAX_ENTRIES: usize = 255;
pub const LONGEST: usize = HEADER_BYTES + ENTRY_BYTES * MAX_ENTRIES;

/// Where a path goes on: an earlier path entry, or `None`, the end of path.
pub type Path = Option<usize>;

#[derive(Clone, Copy, Debug, PartialEq, Eq, Hash)]
pub enum Comparison {
    Same,
    Differ,
}

/// An entry of a pattern. Node references are entry numbers.
#[derive(Clone, Copy, Debug, PartialEq, Eq, Hash)]
pub enum Entry {
    Property(u8),
    Name(u8),
    Not(usize),
    Both(usize, usize),
    After(u8, usize),
    Compare(Comparison, u8, Path, Path),
    Step(u8, Path),
    Jump(u8, Path),
    Test(usize, Path),
    Fork(Path, Path),
    Either(usize, usize),
}

/// A pattern that was read: entries in order, the last the root.
#[derive(Clone, Debug, PartialEq, Eq)]
pub struct Pattern {
    pub entries: Vec<Entry>,
}

/// Reading a pattern as document 01 and Job 6 state it.
pub fn read(bytes: &[u8]) -> Finding {
    match parse(bytes) {
        Ok(pattern) => Finding::Read { entries: pattern.entries.len() as u16 },
        Err(refusal) => Finding::Refused(refusal),
    }
}

impl Comparison {
    /// The other of same and differ.
    pub fn other(self) -> Comparison {
        match self {
            Comparison::Same => Comparison::Differ,
            Comparison::Differ => Comparison::Same,
        }
    }
}

impl Entry {
    /// "Kinds 1 to 7 are nodes, 8 to 11 paths"; Job 6: "Add node kind 12".
    pub fn is_path(&self) -> bool {
        matches!(self, Entry::Step(..) | Entry::Jump(..) | Entry::Test(..) | Entry::Fork(..))
    }

    /// The name of an entry of kind 2 or 9.
    pub fn name(&self) -> Option<u8> {
        match *self {
            Entry::Name(name) | Entry::Jump(name, _) => Some(name),
            _ => None,
        }
    }

    /// The entries that it refers to, first x, then y, then z.
    pub fn references(&self) -> impl Iterator<Item = usize> {
        let referred = match *self {
            Entry::Property(_) | Entry::Name(_) => [None, None],
            Entry::Not(phi) | Entry::After(_, phi) => [Some(phi), None],
            Entry::Both(phi, psi) | Entry::Either(phi, psi) => [Some(phi), Some(psi)],
            Entry::Compare(_, _, alpha, beta) | Entry::Fork(alpha, beta) => [alpha, beta],
            Entry::Step(_, alpha) | Entry::Jump(_, alpha) => [alpha, None],
            Entry::Test(phi, alpha) => [Some(phi), alpha],
        };
        referred.into_iter().flatten()
    }
}

impl Pattern {
    /// Whether an entry of kind 2 or 9 has the name, reached from the root or not.
    pub fn uses(&self, name: u8) -> bool {
        self.entries.iter().any(|entry| entry.name() == Some(name))
    }

    /// Which entries the root reaches. References go to earlier entries, so one sweep backwards finds all.
    pub fn reached(&self) -> Vec<bool> {
        let mut reached = vec![false; self.entries.len()];
        reached[self.entries.len() - 1] = true;
        for number in (0..self.entries.len()).rev() {
            if reached[number] {
                self.entries[number].references().for_each(|referred| reached[referred] = true);
            }
        }
        reached
    }

    /// How many entries are nodes, reached from the root or not.
    pub fn node_entries(&self) -> usize {
        self.entries.iter().filter(|entry| !entry.is_path()).count()
    }

    /// The names that it uses.
    pub fn names(&self) -> BTreeSet<u8> {
        self.entries.iter().filter_map(Entry::name).collect()
    }
}
