//! Random patterns that reading accepts.

use oracle::pattern::{Comparison, Entry, MAX_NAME, Path, Pattern};
use oracle::random::Random;

/// How many different properties, names, axes and channels a pattern or a model draws from. Few make
/// it likely that two parts of an input speak of the same thing.
#[derive(Clone, Copy, Debug)]
pub struct Vocabulary {
    pub properties: usize,
    pub names: usize,
    pub axes: usize,
    pub channels: usize,
}

impl Vocabulary {
    const FEW: Vocabulary = Vocabulary { properties: 3, names: 3, axes: 2, channels: 2 };
    /// "Names run from 0 to 127, properties 0 to 31, axes 0 to 7, channels 0 to 3."
    const ALL: Vocabulary = Vocabulary { properties: 32, names: 128, axes: 8, channels: 4 };

    pub fn random(random: &mut Random) -> Vocabulary {
        if random.once_in(8) { Vocabulary::ALL } else { Vocabulary::FEW }
    }
}

/// A pattern of a random size: mostly of a few entries, seldom of up to 255 or with all names.
pub fn random(random: &mut Random) -> Pattern {
    let entries = match random.below(200) {
        0 => random.between(100, 255),
        1 => return of_all_names(random),
        2..10 => random.between(20, 60),
        10..80 => random.between(1, 5),
        _ => random.between(3, 16),
    };
    of_size(random, entries)
}

/// A pattern of so many entries.
pub fn of_size(random: &mut Random, entries: usize) -> Pattern {
    Draft::new(Vocabulary::random(random)).grown(random, entries)
}

/// A pattern of so many nodes, and of no path, as many as make the most entries, or any number between.
pub fn of_nodes(random: &mut Random, nodes: usize, most: usize) -> Pattern {
    let paths = match random.below(4) {
        0 => 0,
        1 => most - nodes,
        _ => random.between(0, most - nodes),
    };
    Draft::new(Vocabulary::random(random)).of_sorts(random, nodes, paths)
}

/// A pattern that uses every name, some of them in jumps.
fn of_all_names(random: &mut Random) -> Pattern {
    let mut draft = Draft::new(Vocabulary::ALL);
    for name in 0..=MAX_NAME {
        if random.once_in(2) {
            draft.add_path(Entry::Jump(name, draft.rest(random)));
        } else {
            draft.add_node(Entry::Name(name));
        }
    }
    let entries = draft.entries.len() + random.between(1, 8);
    draft.grown(random, entries)
}

/// A pattern in the making, with the numbers of its node entries and of its path entries.
struct Draft {
    vocabulary: Vocabulary,
    entries: Vec<Entry>,
    nodes: Vec<usize>,
    paths: Vec<usize>,
}

impl Draft {
    fn new(vocabulary: Vocabulary) -> Draft {
        Draft { vocabulary, entries: Vec::new(), nodes: Vec::new(), paths: Vec::new() }
    }

    /// The pattern, when different entries have been added up to so many, the last a node.
    fn grown(mut self, random: &mut Random, entries: usize) -> Pattern {
        while self.entries.len() < entries {
            let last = self.entries.len() + 1 == entries;
            if !last && random.once_in(3) {
                self.add_path(self.path_entry(random));
            } else {
                self.add_node(self.node_entry(random));
            }
        }
        Pattern { entries: self.entries }
    }

    /// The pattern, when different entries have been added up to so many nodes and paths, in any order, the last a
    /// node.
    fn of_sorts(mut self, random: &mut Random, nodes: usize, paths: usize) -> Pattern {
        while self.nodes.len() < nodes || self.paths.len() < paths {
            let before_root = nodes - 1 + paths - self.entries.len();
            if random.below(before_root.max(1)) < paths - self.paths.len() {
                self.add_path(self.path_entry(random));
            } else {
                self.add_node(self.node_entry(random));
            }
        }
        Pattern { entries: self.entries }
    }

    /// Adds a path, if no entry equals it.
    fn add_path(&mut self, entry: Entry) {
        if !self.entries.contains(&entry) {
            self.paths.push(self.entries.len());
            self.entries.push(entry);
        }
    }

    /// Adds a node, if no entry equals it.
    fn add_node(&mut self, entry: Entry) {
        if !self.entries.contains(&entry) {
            self.nodes.push(self.entries.len());
            self.entries.push(entry);
        }
    }

    fn node_entry(&self, random: &mut Random) -> Entry {
        let kinds = if self.nodes.is_empty() { 4 } else { 12 };
        match random.below(kinds) {
            0 => Entry::Property(random.below(self.vocabulary.properties) as u8),
            1 => Entry::Name(random.below(self.vocabulary.names) as u8),
            2 | 3 => self.comparison(random),
            4 | 5 => Entry::Not(recent(random, &self.nodes)),
            6 | 7 => Entry::Both(recent(random, &self.nodes), recent(random, &self.nodes)),
            8 | 9 => Entry::Either(recent(random, &self.nodes), recent(random, &self.nodes)),
            _ => Entry::After(random.below(self.vocabulary.axes) as u8, recent(random, &self.nodes)),
        }
    }

    fn comparison(&self, random: &mut Random) -> Entry {
        let comparison = random.pick(&[Comparison::Same, Comparison::Differ]);
        let channel = random.below(self.vocabulary.channels) as u8;
        Entry::Compare(comparison, channel, self.rest(random), self.rest(random))
    }

    fn path_entry(&self, random: &mut Random) -> Entry {
        let kinds = if self.nodes.is_empty() { 3 } else { 4 };
        match random.below(kinds) {
            0 => Entry::Step(random.below(self.vocabulary.axes) as u8, self.rest(random)),
            1 => Entry::Jump(random.below(self.vocabulary.names) as u8, self.rest(random)),
            2 => Entry::Fork(self.rest(random), self.rest(random)),
            _ => Entry::Test(recent(random, &self.nodes), self.rest(random)),
        }
    }

    /// The rest of a path: an earlier path entry, or the end.
    fn rest(&self, random: &mut Random) -> Path {
        let end = self.paths.is_empty() || random.once_in(3);
        (!end).then(|| recent(random, &self.paths))
    }
}

/// One of the numbers, as often as not one of the last three, so that patterns grow deep and the root
/// reaches most of them.
fn recent(random: &mut Random, numbers: &[usize]) -> usize {
    let first = if random.once_in(2) { numbers.len().saturating_sub(3) } else { 0 };
    random.pick(&numbers[first..])
}
