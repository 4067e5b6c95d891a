//! Patterns: typical, large, and graphs with so many routes that only shared work is affordable.

use oracle::pattern::{Comparison, Entry, Path, Pattern};
use oracle::random::Random;

/// Entries in the making.
#[derive(Default)]
pub struct Entries(Vec<Entry>);

impl Entries {
    /// Adds an entry and gives its number.
    pub fn add(&mut self, entry: Entry) -> usize {
        self.0.push(entry);
        self.0.len() - 1
    }

    pub fn count(&self) -> usize {
        self.0.len()
    }

    pub fn pattern(self) -> Pattern {
        Pattern { entries: self.0 }
    }

    /// Adds a path of so many steps, each on the next axis.
    fn steps(&mut self, count: usize, axes: usize) -> Path {
        let mut path = None;
        for number in 0..count {
            path = Some(self.add(Entry::Step((number % axes) as u8, path)));
        }
        path
    }

    /// Adds a comparison of a path, and then tests and comparisons in turn up to the count, each comparison of the
    /// path after the test of the comparison before it.
    fn rounds(&mut self, count: usize, path: Path, sort: Comparison) -> usize {
        let mut node = self.add(Entry::Compare(DIFFER, 0, path, None));
        while self.count() + 2 <= count {
            let test = self.add(Entry::Test(node, path));
            node = self.add(Entry::Compare(sort, 0, Some(test), path));
        }
        node
    }

    /// Adds forks of so many paths, from this number on, with the test of a node, and compares their ends.
    fn use_again(&mut self, first: usize, count: usize, node: usize) {
        let mut path = self.add(Entry::Test(node, None));
        for used in first..first + count {
            path = self.add(Entry::Fork(Some(path), Some(used)));
        }
        self.add(Entry::Compare(SAME, 0, Some(path), None));
    }
}

const SAME: Comparison = Comparison::Same;
const DIFFER: Comparison = Comparison::Differ;

/// 20 entries of all kinds of document 01, all of them reached.
pub fn typical() -> Pattern {
    let mut entries = Entries::default();
    let open = entries.add(Entry::Property(0));
    let hot = entries.add(Entry::Property(1));
    let valve = entries.add(Entry::Name(3));
    let shut = entries.add(Entry::Not(open));
    let hot_shut = entries.add(Entry::Both(hot, shut));
    let leads_there = entries.add(Entry::After(0, hot_shut));
    let below = entries.add(Entry::Step(1, None));
    let twice = entries.add(Entry::Step(0, Some(below)));
    let tested = entries.add(Entry::Test(leads_there, Some(twice)));
    let jump = entries.add(Entry::Jump(2, Some(below)));
    let either = entries.add(Entry::Fork(Some(tested), Some(jump)));
    let agree = entries.add(Entry::Compare(SAME, 0, Some(either), Some(below)));
    let disagree = entries.add(Entry::Compare(DIFFER, 1, Some(twice), Some(jump)));
    let settled = entries.add(Entry::Not(disagree));
    let no_valve = entries.add(Entry::Not(valve));
    let calm = entries.add(Entry::Both(agree, no_valve));
    let above_calm = entries.add(Entry::After(1, calm));
    let far = entries.add(Entry::Not(above_calm));
    let pair = entries.add(Entry::Both(settled, far));
    entries.add(Entry::Not(pair));
    entries.pattern()
}

/// The pattern with its last two entries replaced, so that its root holds nowhere.
pub fn contradicted(mut pattern: Pattern) -> Pattern {
    let kept = pattern.entries.len() - 2;
    pattern.entries.truncate(kept);
    let part = pattern.entries.iter().rposition(|entry| !entry.is_path()).expect("a pattern has a node");
    pattern.entries.push(Entry::Not(part));
    pattern.entries.push(Entry::Both(part, kept));
    pattern
}

/// The seed of the mixed patterns that are timed: with it some nodes of the large model, and not all, meet
/// the large one.
pub const SEED: u64 = 8;

/// Entries of all kinds of document 01 at random, the root reaching nearly all of them.
pub fn mixed(count: usize, seed: u64) -> Pattern {
    let mut making = Mixed {
        entries: vec![Entry::Property(0)],
        nodes: vec![0],
        paths: Vec::new(),
        random: Random::new(seed, 0),
    };
    while making.entries.len() < count {
        making.add(count - making.entries.len());
    }
    Pattern { entries: making.entries }
}

/// A mixed pattern in the making, with the entries that nothing refers to yet.
struct Mixed {
    entries: Vec<Entry>,
    nodes: Vec<usize>,
    paths: Vec<usize>,
    random: Random,
}

impl Mixed {
    /// Adds an entry, drawing loose ends together when few entries are left to add.
    fn add(&mut self, left: usize) {
        let (nodes, paths) = (self.nodes.clone(), self.paths.clone());
        let entry = if 2 * (nodes.len() + paths.len()) + 2 < left { self.any() } else { self.joint() };
        if self.entries.contains(&entry) {
            (self.nodes, self.paths) = (nodes, paths);
            return;
        }
        let number = self.entries.len();
        if entry.is_path() {
            self.paths.push(number)
        } else {
            self.nodes.push(number)
        }
        self.entries.push(entry);
    }

    fn any(&mut self) -> Entry {
        let axis = self.random.below(8) as u8;
        match self.random.below(10) {
            0 => Entry::Property(self.random.below(32) as u8),
            1 => Entry::Name(self.random.below(128) as u8),
            2 => Entry::Not(self.node()),
            3 => Entry::Both(self.node(), self.node()),
            4 => Entry::After(axis, self.node()),
            5 => self.comparison(),
            6 => Entry::Step(axis, self.path()),
            7 => Entry::Jump(self.random.below(128) as u8, self.path()),
            8 => Entry::Test(self.node(), self.path()),
            _ => Entry::Fork(self.path(), self.path()),
        }
    }

    /// Two loose ends in one: paths compared; nodes in `both` and `not` in turn, so that neither all nor no
    /// nodes of a model are left.
    fn joint(&mut self) -> Entry {
        if !self.paths.is_empty() {
            return self.comparison();
        }
        match self.entries.last() {
            Some(Entry::Both(..)) => Entry::Not(self.node()),
            _ => Entry::Both(self.node(), self.node()),
        }
    }

    fn comparison(&mut self) -> Entry {
        let sort = self.random.pick(&[SAME, DIFFER]);
        Entry::Compare(sort, self.random.below(4) as u8, self.path(), self.path())
    }

    /// A loose node, or any node if there is none.
    fn node(&mut self) -> usize {
        if let Some(node) = self.nodes.pop() {
            return node;
        }
        let nodes: Vec<usize> = (0..self.entries.len()).filter(|&i| !self.entries[i].is_path()).collect();
        self.random.pick(&nodes)
    }

    /// A loose path, or now and then the end of path.
    fn path(&mut self) -> Path {
        if self.random.once_in(8) { None } else { self.paths.pop() }
    }
}

/// Pairs of `both` or `either`, each referring to both of the pair before it: routes double from pair to pair.
pub fn shared_nodes(count: usize, joint: fn(usize, usize) -> Entry) -> Pattern {
    let mut entries = Entries::default();
    let mut pair = (entries.add(Entry::Property(0)), entries.add(Entry::Property(1)));
    while entries.count() + 2 < count {
        pair = (entries.add(joint(pair.0, pair.1)), entries.add(joint(pair.1, pair.0)));
    }
    entries.add(joint(pair.0, pair.1));
    entries.pattern()
}

/// Forks of the two paths before: as many routes as the Fibonacci numbers, compared at the root.
pub fn shared_forks(count: usize) -> Pattern {
    let mut entries = Entries::default();
    let mut pair = (entries.add(Entry::Step(0, None)), entries.add(Entry::Step(1, None)));
    while entries.count() + 1 < count {
        pair = (pair.1, entries.add(Entry::Fork(Some(pair.0), Some(pair.1))));
    }
    entries.add(Entry::Compare(SAME, 0, Some(pair.0), Some(pair.1)));
    entries.pattern()
}

/// A path of steps, each on the next axis, compared at the root.
pub fn long_path(count: usize, axes: usize) -> Pattern {
    let mut entries = Entries::default();
    let path = entries.steps(count - 1, axes);
    entries.add(Entry::Compare(SAME, 0, path, None));
    entries.pattern()
}

/// A path of steps after a test that holds nowhere, compared at the root: where it leads is never asked.
pub fn false_test(count: usize) -> Pattern {
    let mut entries = Entries::default();
    let property = entries.add(Entry::Property(0));
    let not = entries.add(Entry::Not(property));
    let never = entries.add(Entry::Both(property, not));
    let path = entries.steps(count - 5, 1);
    let test = entries.add(Entry::Test(never, path));
    entries.add(Entry::Compare(SAME, 0, Some(test), None));
    entries.pattern()
}

/// Node entries one inside the other: after, after, ... on each axis in turn.
pub fn long_after(count: usize) -> Pattern {
    let mut entries = Entries::default();
    let mut node = entries.add(Entry::Property(0));
    for number in 1..count {
        node = entries.add(Entry::After((number % 8) as u8, node));
    }
    entries.pattern()
}

/// Rounds of step, test and comparison: each comparison's path goes through all the earlier comparisons.
pub fn nested_tests(count: usize) -> Pattern {
    let mut entries = Entries::default();
    let mut path = Some(entries.add(Entry::Step(0, None)));
    let mut node = entries.add(Entry::Compare(DIFFER, 0, path, None));
    let mut round = 0;
    while entries.count() + 3 <= count {
        round += 1;
        let step = entries.add(Entry::Step(round % 8, path));
        path = Some(entries.add(Entry::Test(node, Some(step))));
        let sort = if round % 2 == 0 { SAME } else { DIFFER };
        node = entries.add(Entry::Compare(sort, round % 4, path, Some(step)));
    }
    entries.pattern()
}

/// A third of the entries are one long path, a third comparisons of its whole and its parts, and a third
/// bring these together: a comparison that follows its path on its own follows it whole.
pub fn sweeping_comparisons(count: usize) -> Pattern {
    let mut entries = Entries::default();
    let third = count / 3;
    let mut paths = vec![entries.add(Entry::Step(0, None))];
    for number in 1..third {
        let path = paths[number - 1];
        paths.push(entries.add(Entry::Step((number % 8) as u8, Some(path))));
    }
    let whole = Some(paths[third - 1]);
    let comparisons: Vec<usize> = (0..third)
        .map(|number| entries.add(Entry::Compare(SAME, (number % 4) as u8, whole, Some(paths[number]))))
        .collect();
    comparisons.into_iter().reduce(|all, comparison| entries.add(Entry::Both(all, comparison)));
    entries.pattern()
}

/// Half of the entries are one long path, the others tests and comparisons in turn, each comparison of the
/// path after the test of the comparison before it: many comparisons, all reached, each of the longest path.
pub fn tests_before_a_long_path(count: usize) -> Pattern {
    let mut entries = Entries::default();
    let path = entries.steps(count / 2, 8);
    entries.rounds(count, path, SAME);
    entries.pattern()
}

/// How many paths have rows at once in a judgement of 64 nodes.
const KEPT: usize = 95;

/// A path of steps, of which the last parts are used again at the end, with another path two more than have rows at
/// once. Between are rounds of one part, which keeps its rows as the next that is used, while others lose theirs.
pub fn rounds_beside_lost_paths(axes: usize) -> Pattern {
    let (passed, waiting) = (30, KEPT + 1);
    let mut entries = Entries::default();
    entries.steps(passed + waiting, axes);
    entries.add(Entry::Step(7, None));
    let node = entries.rounds(255 - waiting - 3, Some(2 * passed), DIFFER);
    entries.use_again(passed, waiting + 1, node);
    entries.pattern()
}

/// A path of steps two more than have rows at once, and another path. All parts are used again, the longest first, and
/// the whole path last, which loses its rows by that. Behind are rounds of it, before which it gets them back.
pub fn rounds_of_a_lost_path(axes: usize) -> Pattern {
    let mut entries = Entries::default();
    let path = entries.steps(KEPT + 2, axes);
    let mut all = entries.add(Entry::Step(7, None));
    for part in (0..=KEPT).rev() {
        all = entries.add(Entry::Fork(Some(all), Some(part)));
    }
    let mut node = entries.add(Entry::Compare(DIFFER, 0, Some(all), path));
    while entries.count() + 2 <= 255 {
        let test = entries.add(Entry::Test(node, path));
        node = entries.add(Entry::Compare(DIFFER, 0, Some(test), path));
    }
    entries.pattern()
}

/// A path of few steps, whose parts are all used again at the end. Between are rounds of the path, at a distance at
/// which slots by number would come round to its own: few paths are in use, and none need lose its rows.
pub fn rounds_of_a_kept_path() -> Pattern {
    let few = 40;
    let mut entries = Entries::default();
    let path = entries.steps(few, 8);
    let mut node = entries.add(Entry::Property(0));
    while entries.count() + 1 < few - 1 + KEPT {
        node = entries.add(Entry::After((entries.count() % 8) as u8, node));
    }
    let node = entries.rounds(255 - few - 2, path, SAME);
    entries.use_again(0, few, node);
    entries.pattern()
}

/// Half of the entries are one long path, the others comparisons of its longest parts, of which the root is
/// one and reaches none: the dearest that was found for a judgement that evaluates every entry.
pub fn unreached_comparisons(count: usize) -> Pattern {
    let mut entries = Entries::default();
    let half = count / 2;
    let mut path = None;
    for _ in 0..half {
        path = Some(entries.add(Entry::Step(0, path)));
    }
    let part = |shorter: usize| Some(half - 1 - shorter);
    for number in 0..count - half {
        let channel = (number % 4) as u8;
        entries.add(Entry::Compare(DIFFER, channel, part(number / 4 % 8), part(number / 32)));
    }
    entries.pattern()
}
