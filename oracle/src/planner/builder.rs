//! Builds patterns: an entry that is there already is shared, so that none repeats (refusal 7).

use crate::pattern::{Comparison, Entry, Path, Pattern};

/// The end of a path.
pub const END: Path = None;

/// The most entries of a pattern file.
pub const MAX_ENTRIES: usize = 255;

/// Entries so far. Every method but `finish` answers where its entry stands.
#[derive(Clone, Debug, Default)]
pub struct Builder {
    entries: Vec<Entry>,
}

impl Builder {
    pub fn property(&mut self, property: u8) -> usize {
        self.shared(Entry::Property(property))
    }

    pub fn name(&mut self, name: u8) -> usize {
        self.shared(Entry::Name(name))
    }

    pub fn not(&mut self, phi: usize) -> usize {
        self.shared(Entry::Not(phi))
    }

    pub fn both(&mut self, phi: usize, psi: usize) -> usize {
        self.shared(Entry::Both(phi, psi))
    }

    pub fn either(&mut self, phi: usize, psi: usize) -> usize {
        self.shared(Entry::Either(phi, psi))
    }

    /// What either says, by three nots and a both.
    pub fn not_neither(&mut self, phi: usize, psi: usize) -> usize {
        let (not_phi, not_psi) = (self.not(phi), self.not(psi));
        let neither = self.both(not_phi, not_psi);
        self.not(neither)
    }

    /// All of them, by nested "both".
    pub fn all(&mut self, nodes: &[usize]) -> usize {
        let (&first, rest) = nodes.split_first().expect("at least one entry");
        rest.iter().fold(first, |sofar, &node| self.both(sofar, node))
    }

    pub fn after(&mut self, axis: u8, phi: usize) -> usize {
        self.shared(Entry::After(axis, phi))
    }

    pub fn same(&mut self, channel: u8, alpha: Path, beta: Path) -> usize {
        self.shared(Entry::Compare(Comparison::Same, channel, alpha, beta))
    }

    pub fn differ(&mut self, channel: u8, alpha: Path, beta: Path) -> usize {
        self.shared(Entry::Compare(Comparison::Differ, channel, alpha, beta))
    }

    pub fn step(&mut self, axis: u8, alpha: Path) -> Path {
        Some(self.shared(Entry::Step(axis, alpha)))
    }

    pub fn jump(&mut self, name: u8, alpha: Path) -> Path {
        Some(self.shared(Entry::Jump(name, alpha)))
    }

    pub fn test(&mut self, phi: usize, alpha: Path) -> Path {
        Some(self.shared(Entry::Test(phi, alpha)))
    }

    pub fn fork(&mut self, alpha: Path, beta: Path) -> Path {
        Some(self.shared(Entry::Fork(alpha, beta)))
    }

    /// Takes over another pattern's entries; answers where its root stands.
    pub fn graft(&mut self, pattern: &Pattern) -> usize {
        let mut moved: Vec<usize> = Vec::new();
        for &entry in &pattern.entries {
            let entry = with_references(entry, |reference| moved[reference]);
            moved.push(self.shared(entry));
        }
        *moved.last().expect("a pattern has a root")
    }

    /// The pattern with this root, or `None` if it has too many entries. Later entries are dropped.
    pub fn finish(mut self, root: usize) -> Option<Pattern> {
        self.entries.truncate(root + 1);
        (root < MAX_ENTRIES).then_some(Pattern { entries: self.entries })
    }

    /// Where the entry stands, added if it isn't there yet.
    fn shared(&mut self, entry: Entry) -> usize {
        self.entries.iter().position(|earlier| *earlier == entry).unwrap_or_else(|| {
            self.entries.push(entry);
            self.entries.len() - 1
        })
    }
}

/// The entry with each reference moved.
fn with_references(entry: Entry, moved: impl Fn(usize) -> usize) -> Entry {
    let path = |alpha: Path| alpha.map(&moved);
    match entry {
        Entry::Property(_) | Entry::Name(_) => entry,
        Entry::Not(phi) => Entry::Not(moved(phi)),
        Entry::Both(phi, psi) => Entry::Both(moved(phi), moved(psi)),
        Entry::After(axis, phi) => Entry::After(axis, moved(phi)),
        Entry::Compare(comparison, channel, alpha, beta) => {
            Entry::Compare(comparison, channel, path(alpha), path(beta))
        }
        Entry::Step(axis, alpha) => Entry::Step(axis, path(alpha)),
        Entry::Jump(name, alpha) => Entry::Jump(name, path(alpha)),
        Entry::Test(phi, alpha) => Entry::Test(moved(phi), path(alpha)),
        Entry::Fork(alpha, beta) => Entry::Fork(path(alpha), path(beta)),
        Entry::Either(phi, psi) => Entry::Either(moved(phi), moved(psi)),
    }
}
