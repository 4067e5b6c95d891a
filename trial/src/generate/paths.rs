//! Patterns of many paths, which wait for the time when all are there to be used once more. Of those that are used last
//! some have lost their rows by then, and a fork of more than have rows at once doesn't get its own back.

use super::patterns::Vocabulary;
use super::rows::{FEW, MANY, ROW, slot_count};
use oracle::pattern::{Comparison, Entry, Path, Pattern};
use oracle::planner::builder::MAX_ENTRIES;
use oracle::random::Random;

/// How many nodes a model for such a pattern has, and how many paths the pattern begins with.
#[derive(Clone, Copy, Debug)]
pub struct Size {
    pub nodes: usize,
    /// Paths that are only gone on by, each by the next.
    pub passed: usize,
    /// Paths that are used once more.
    pub waiting: usize,
    /// Whether paths are added that aren't counted here.
    pub more: bool,
}

impl Size {
    /// More paths in use than there are slots; as many as are kept in a small judgement, or one more; or any number.
    pub fn random(random: &mut Random) -> Size {
        let any =
            Size { nodes: random.between(1, 64), passed: 0, waiting: random.between(8, 80), more: true };
        match random.below(12) {
            0..7 => Size { nodes: random.between(60, 64), waiting: random.between(96, 108), ..any },
            7..9 => {
                let nodes = random.pick(&[8, 11, 16, 23, 32, 64]);
                Size { nodes, waiting: FEW / (ROW * nodes) - random.below(2), more: false, ..any }
            }
            9 => Size { nodes: random.between(1, 24), waiting: random.between(100, 110), ..any },
            10 => Size { nodes: random.between(48, 64), passed: random.between(80, 180), waiting: 16, ..any },
            _ => any,
        }
    }
}

/// In which order the paths that wait are used, and nodes joined, of which the root comes to the last first.
#[derive(Clone, Copy, Debug, PartialEq, Eq)]
enum Order {
    Any,
    OldestLast,
    NewestLast,
}

impl Order {
    /// Which of so many, one or more, is next.
    fn next(self, random: &mut Random, count: usize) -> usize {
        match self {
            Order::Any => random.below(count),
            Order::OldestLast => count - 1,
            Order::NewestLast => 0,
        }
    }
}

/// A pattern that begins with so many paths and uses each once more. Mostly the root reaches all of them.
pub fn many(random: &mut Random, vocabulary: Vocabulary, size: Size) -> Pattern {
    let mut making = Making {
        vocabulary,
        slots: slot_count(MANY, size.nodes) - 1,
        order: random.pick(&[Order::Any, Order::OldestLast, Order::OldestLast, Order::NewestLast]),
        random,
        entries: Vec::new(),
        nodes: Vec::new(),
        paths: Vec::new(),
        loose: Vec::new(),
        due: Vec::new(),
    };
    making.begin(size);
    if size.more && !making.random.once_in(4) {
        making.use_again();
    }
    if size.more && making.random.once_in(2) {
        making.fork_due();
        making.use_fork();
    } else {
        making.use_due();
    }
    if size.more {
        making.use_again();
        making.use_due();
    }
    making.join();
    if making.random.once_in(8) {
        making.cut();
    }
    Pattern { entries: making.entries }
}

/// A pattern in the making.
struct Making<'r> {
    random: &'r mut Random,
    vocabulary: Vocabulary,
    /// How many paths have rows at once.
    slots: usize,
    /// In which order the paths that are due are used.
    order: Order,
    entries: Vec<Entry>,
    nodes: Vec<usize>,
    paths: Vec<usize>,
    /// The nodes that nothing refers to.
    loose: Vec<usize>,
    /// The paths that are still to be used once more.
    due: Vec<usize>,
}

impl Making<'_> {
    /// The paths that a pattern begins with, after a few nodes that they test. As often as not the first are one path,
    /// from entry 0 on.
    fn begin(&mut self, size: Size) {
        let parts = if self.random.once_in(2) { self.random.between(1, 12) } else { 0 };
        if parts > 0 {
            self.add_path(None);
        }
        for property in 0..3 {
            self.add(Entry::Property(property));
        }
        self.add(Entry::Not(self.nodes[0]));
        while self.paths.len() < parts {
            self.add_path(self.paths.last().copied());
        }
        while self.paths.len() < size.passed {
            self.due.clear();
            self.add_path(self.paths.last().copied());
        }
        while self.due.len() < size.waiting {
            let rest = self.rest();
            self.add_path(rest);
        }
    }

    /// Adds entries on paths of any age, as long as there is room beside those that use the paths that are due and some
    /// that deny nodes.
    fn use_again(&mut self) {
        let denying = self.random.between(6, 30);
        while self.room() > denying && !self.random.once_in(32) {
            let old = self.old();
            match self.random.below(4) {
                0 => {
                    let (ones, others) = ([old, self.recent()], [old, None, self.old(), self.recent()]);
                    let (one, other) = (self.random.pick(&ones), self.random.pick(&others));
                    self.compare(one, other);
                    continue;
                }
                1 => self.add_path(old),
                2 => {
                    let recent = self.recent();
                    self.add_path(recent);
                }
                _ => {
                    let axis = self.axis();
                    self.add(Entry::Step(axis, self.next_to_lose().or(old)));
                }
            }
            let new = self.paths.last().copied();
            let others = [None, self.rest()];
            let other = self.random.pick(&others);
            if !self.random.once_in(4) {
                self.compare(new, other);
            }
            if self.random.once_in(4) {
                self.due.pop();
            }
        }
    }

    /// Uses the paths that are due, in comparisons, mostly of two.
    fn use_due(&mut self) {
        while !self.due.is_empty() {
            let one = self.take_due();
            let is_alone = self.room() > 4 && self.random.once_in(8);
            let other = if is_alone { self.random.pick(&[one, None]) } else { self.take_due() };
            self.compare(one, other);
        }
    }

    /// Uses the paths that are due, in one fork of all or of most.
    fn fork_due(&mut self) {
        let left = self.random.pick(&[1, 1, 4, 12]);
        while self.due.len() > left {
            let (one, other) = (self.take_due(), self.take_due());
            self.add(Entry::Fork(one, other));
        }
    }

    /// Adds a few entries on the last path, the fork, and on those that go on by it.
    fn use_fork(&mut self) {
        let fork = self.paths.last().copied();
        for _ in 0..self.random.below(8) {
            if self.room() < 8 {
                break;
            }
            match self.random.below(4) {
                0 => self.add_path(fork),
                1 => self.add(Entry::Test(self.nodes[self.nodes.len() - 1], fork)),
                _ => {}
            }
            let others = [fork, None, self.old(), self.recent()];
            let (one, other) =
                (self.random.pick(&[fork, self.paths.last().copied()]), self.random.pick(&others));
            self.compare(one, other);
        }
    }

    /// Joins the nodes until one is left.
    fn join(&mut self) {
        let order = self.random.pick(&[Order::Any, Order::OldestLast, Order::NewestLast]);
        while self.loose.len() > 1 {
            let (one, other) = (self.take_loose(order), self.take_loose(order));
            let joint = self.random.pick(&[Entry::Both(one, other), Entry::Either(one, other)]);
            self.add(joint);
            if self.random.below(self.loose.len()) < self.room() && self.random.below(4) < 3 {
                self.add(Entry::Not(self.entries.len() - 1));
            }
            if order == Order::NewestLast {
                self.loose.rotate_right(1);
            }
        }
    }

    /// Makes another node the root, which reaches fewer entries.
    fn cut(&mut self) {
        let root = self.random.pick(&self.nodes);
        self.entries.truncate(root + 1);
    }

    /// How many more entries there is room for when all is used and joined.
    fn room(&self) -> usize {
        let comparisons = self.due.len().div_ceil(2);
        let joints = self.loose.len() + comparisons;
        MAX_ENTRIES.saturating_sub(self.entries.len() + comparisons + joints)
    }

    /// Adds an entry, if no entry equals it.
    fn add(&mut self, entry: Entry) {
        if self.entries.contains(&entry) {
            return;
        }
        let number = self.entries.len();
        self.loose.retain(|&node| !entry.references().any(|referred| referred == node));
        if entry.is_path() {
            self.paths.push(number);
            self.due.push(number);
        } else {
            self.nodes.push(number);
            self.loose.push(number);
        }
        self.entries.push(entry);
    }

    /// Adds a path that goes on by this one.
    fn add_path(&mut self, rest: Path) {
        let axis = self.axis();
        let name = self.random.below(self.vocabulary.names) as u8;
        let entry = match self.random.below(8) {
            0 => Entry::Jump(name, rest),
            1 | 2 if !self.nodes.is_empty() => Entry::Test(self.tested(), rest),
            3 | 4 if rest.is_some() => Entry::Fork(rest, self.old()),
            _ => Entry::Step(axis, rest),
        };
        self.add(entry);
    }

    fn compare(&mut self, one: Path, other: Path) {
        let comparison = self.random.pick(&[Comparison::Same, Comparison::Differ]);
        let channel = self.random.below(self.vocabulary.channels) as u8;
        self.add(Entry::Compare(comparison, channel, one, other));
    }

    /// Any path, mostly one of the first, which lose their rows if they are used last.
    fn old(&mut self) -> Path {
        let few = if self.random.once_in(4) { self.paths.len() } else { self.paths.len().min(16) };
        Some(self.random.pick(&self.paths[..few]))
    }

    /// One of the last paths.
    fn recent(&mut self) -> Path {
        let few = self.paths.len().min(4);
        Some(self.random.pick(&self.paths[self.paths.len() - few..]))
    }

    /// The path whose slot the next path takes, if all are in use and none is used meanwhile.
    fn next_to_lose(&self) -> Path {
        let lost = self.paths.len().saturating_sub(self.slots);
        match self.order {
            Order::NewestLast => self.due.last().copied(),
            _ => self.due.get(lost).copied(),
        }
    }

    fn axis(&mut self) -> u8 {
        self.random.below(self.vocabulary.axes) as u8
    }

    /// Any node, as often as not the last.
    fn tested(&mut self) -> usize {
        let first = if self.random.once_in(2) { self.nodes.len() - 1 } else { 0 };
        self.random.pick(&self.nodes[first..])
    }

    /// Any path, the last one, or the end.
    fn rest(&mut self) -> Path {
        match self.random.below(4) {
            0 => None,
            1 => self.paths.last().copied(),
            _ => (!self.paths.is_empty()).then(|| self.random.pick(&self.paths)),
        }
    }

    /// A path that is due, or the end if none is.
    fn take_due(&mut self) -> Path {
        let count = self.due.len();
        (count > 0).then(|| self.due.remove(self.order.next(self.random, count)))
    }

    fn take_loose(&mut self, order: Order) -> usize {
        self.loose.remove(order.next(self.random, self.loose.len()))
    }
}
