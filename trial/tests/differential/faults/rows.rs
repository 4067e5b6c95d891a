//! A judge of models that keeps the ends of paths as rows in slots, as the proved one does, right but for one thing.

use oracle::finding::Finding;
use oracle::model::{self, Model};
use oracle::pattern::{self, Comparison, Entry, Path, Pattern};
use trial::differential::implementation::{Lent, run_oracle};
use trial::generate::input::Operation;
use trial::generate::rows::{Giving, Learning, Slots};

/// A set of nodes: bit u for node u.
type Nodes = u64;

/// How it keeps rows, and what it does without.
#[derive(Clone, Copy)]
pub struct Keeper {
    /// The slot for a path entry, instead of this one.
    next: fn(&Slots, usize) -> usize,
    /// The path entry whose rows a path gets that is learned for an entry behind it.
    brought_back: fn(&Judge, usize) -> usize,
    /// The slot whose rows it takes for a path that one learned so goes on by.
    back_on: fn(&Judge, Path) -> Option<usize>,
    /// Whether paths that lost their rows get them back. It is right either way: without, they are swept.
    brings_back: bool,
    /// Whether the rows of a path learned so are filled.
    fills_again: bool,
    /// The slot whose rows it takes for a path that another, learned for itself, goes on by.
    built_on: fn(&Judge, Path) -> Option<usize>,
    /// Whether a path that is passed over is given a slot, which isn't filled.
    gives_anyway: bool,
    /// The entry that has the slot which was filled for this one.
    holder: fn(usize) -> usize,
    /// Whether a node has the row of the node before it, for a step on an axis.
    leads_alike: fn(&Judge, u8, usize) -> bool,
    /// The nodes with which the union of rows of a slot is complete.
    whole: fn(&Judge, usize) -> Nodes,
    /// Where two paths that are compared lead from a node.
    compared: fn(&Judge, [Path; 2], usize) -> [Nodes; 2],
    /// Whether of two sets of nodes some compare so on a channel.
    some_pair: fn(&Judge, Comparison, u8, [Nodes; 2]) -> bool,
    /// Which nodes pass a test that holds at the others, on a path without rows.
    passing: fn(Nodes, Nodes) -> Nodes,
    /// Where a fork leads, on a path without rows.
    sides: fn(Path, Path) -> [Path; 2],
}

pub const RIGHT: Keeper = Keeper {
    next: |_, slot| slot,
    brought_back: |_, path| path,
    back_on: |judge, path| judge.slots.of(path),
    brings_back: true,
    fills_again: true,
    built_on: |judge, path| judge.slots.of(path),
    gives_anyway: false,
    holder: |entry| entry,
    leads_alike: |judge, axis, node| judge.neighbours(axis, node).is_some_and(|[before, own]| before == own),
    whole: |judge, slot| judge.rows[slot].iter().fold(0, |union, row| union | row),
    compared: |judge, paths, node| paths.map(|path| judge.ends(path, node)),
    some_pair: |judge, comparison, channel, ends| judge.some_pair(comparison, channel, ends),
    passing: |nodes, holds| nodes & holds,
    sides: |alpha, beta| [alpha, beta],
};

pub const SWEEPING: Keeper = Keeper { brings_back: false, ..RIGHT };

pub type Mistake = (&'static str, Keeper);

pub const MISTAKES: [Mistake; 29] = [
    (
        "a path that lost its rows is compared by those in its slot",
        Keeper { compared: |judge, paths, node| paths.map(|path| judge.stale(path, node)), ..SWEEPING },
    ),
    (
        "a path that was passed over is compared as the end of path",
        Keeper {
            compared: |judge, paths, node| {
                paths.map(|path| if judge.given(path) == 0 { 1 << node } else { judge.ends(path, node) })
            },
            ..SWEEPING
        },
    ),
    (
        "a path without rows has the ends of the one it is compared with",
        Keeper {
            compared: |judge, [one, other], node| {
                [[one, other], [other, one]].map(|paths| judge.ends(judge.held_of(paths), node))
            },
            ..SWEEPING
        },
    ),
    (
        "a path without rows leads nowhere",
        Keeper { compared: |judge, paths, node| paths.map(|path| judge.by_rows(path, node)), ..SWEEPING },
    ),
    (
        "the first path is compared with itself",
        Keeper { compared: |judge, [path, _], node| [judge.ends(path, node); 2], ..RIGHT },
    ),
    (
        "the second path is compared with itself",
        Keeper { compared: |judge, [_, path], node| [judge.ends(path, node); 2], ..RIGHT },
    ),
    (
        "a path is built on the rows in a slot that another path has",
        Keeper { built_on: |judge, path| Some(judge.given(path)), ..SWEEPING },
    ),
    (
        "a path is brought back on the rows in a slot that another path has",
        Keeper { back_on: |judge, path| Some(judge.given(path)), ..RIGHT },
    ),
    (
        "a path brought back has the rows of the one that it goes on by",
        Keeper { brought_back: |judge, path| judge.rest(path).unwrap_or(path), ..RIGHT },
    ),
    (
        "a path brought back has the rows of the path entry before it",
        Keeper { brought_back: |judge, path| judge.path_before(path), ..RIGHT },
    ),
    ("a path brought back has the rows that were in its slot", Keeper { fills_again: false, ..RIGHT }),
    ("a path that is passed over has the rows of a slot", Keeper { gives_anyway: true, ..RIGHT }),
    ("a slot has the rows of the entry behind its path", Keeper { holder: |entry| entry + 1, ..RIGHT }),
    (
        "the slot of the end of path is given to others",
        Keeper { next: |slots, slot| slot % (slots.count() - 1), ..RIGHT },
    ),
    ("the last slot alone is given", Keeper { next: |slots, _| slots.count() - 1, ..STALE }),
    (
        "a node has the row of the one before it, wherever it leads",
        Keeper { leads_alike: |_, _, node| node > 0, ..RIGHT },
    ),
    (
        "a node has the row of the one before it if both lead to as many",
        Keeper { leads_alike: |judge, axis, node| judge.agree(axis, node, Nodes::count_ones), ..RIGHT },
    ),
    (
        "a node has the row of the one before it if both lead to the same lowest",
        Keeper { leads_alike: |judge, axis, node| judge.agree(axis, node, Nodes::trailing_zeros), ..RIGHT },
    ),
    (
        "a node has the row of the one before it if that leads to the same and more",
        Keeper {
            leads_alike: |judge, axis, node| {
                judge.neighbours(axis, node).is_some_and(|[before, own]| own & !before == 0)
            },
            ..RIGHT
        },
    ),
    (
        "a node has the row of the one before it if both lead alike on axis 0",
        Keeper { leads_alike: |judge, _, node| (RIGHT.leads_alike)(judge, 0, node), ..RIGHT },
    ),
    (
        "node 0 has the row before its own if it leads as node 63 on the axis before",
        Keeper {
            leads_alike: |judge, axis, node| match node {
                0 => axis > 0 && judge.successors(axis, 0) == judge.successors(axis - 1, 63),
                _ => (RIGHT.leads_alike)(judge, axis, node),
            },
            ..RIGHT
        },
    ),
    (
        "a union of rows is complete with the nodes of the first",
        Keeper { whole: |judge, slot| judge.rows[slot][0], ..RIGHT },
    ),
    (
        "differ holds where both paths lead to a node",
        Keeper {
            some_pair: |judge, comparison, channel, [left, right]| {
                left & right != 0 || judge.some_pair(comparison, channel, [left, right])
            },
            ..RIGHT
        },
    ),
    (
        "differ doesn't hold where both paths lead to a node",
        Keeper {
            some_pair: |judge, comparison, channel, [left, right]| {
                (comparison == Comparison::Same || left & right == 0)
                    && judge.some_pair(comparison, channel, [left, right])
            },
            ..RIGHT
        },
    ),
    (
        "same doesn't hold where the paths have no node in common",
        Keeper {
            some_pair: |judge, comparison, channel, [left, right]| {
                (comparison == Comparison::Differ || left & right != 0)
                    && judge.some_pair(comparison, channel, [left, right])
            },
            ..RIGHT
        },
    ),
    (
        "one value alone is compared where the paths have no node in common",
        Keeper {
            some_pair: |judge, comparison, channel, [left, right]| {
                let lowest = left & left.wrapping_neg();
                let compared = if left & right == 0 { lowest } else { left };
                judge.some_pair(comparison, channel, [compared, right])
            },
            ..RIGHT
        },
    ),
    ("a test lets everything pass, on a path without rows", Keeper { passing: |nodes, _| nodes, ..SWEEPING }),
    ("a fork goes left only, on a path without rows", Keeper { sides: |alpha, _| [alpha; 2], ..SWEEPING }),
    ("a fork goes right only, on a path without rows", Keeper { sides: |_, beta| [beta; 2], ..SWEEPING }),
];

/// Takes every path to have the rows of its slot.
const STALE: Keeper = Keeper {
    built_on: |judge, path| Some(judge.given(path)),
    compared: |judge, paths, node| paths.map(|path| judge.rows[judge.given(path)][node]),
    ..RIGHT
};

impl Keeper {
    /// As an implementation: refusals and the area are left to the oracle.
    pub fn run(self, operation: Operation, lent: Lent) -> Finding {
        let (pattern, proposal) = (lent.pattern.to_vec(), lent.proposal.to_vec());
        match run_oracle(operation, lent) {
            Finding::Met { .. } | Finding::Unmet if operation == Operation::Model => {
                let pattern = pattern::parse(&pattern).expect("it was read");
                let model = model::parse(&proposal).expect("it was judged");
                Judge::new(self, &pattern, &model).finding()
            }
            finding => finding,
        }
    }
}

/// A judgement under way.
pub struct Judge<'a> {
    keeper: Keeper,
    pattern: &'a Pattern,
    model: &'a Model,
    slots: Slots,
    /// By axis and node.
    successors: [[Nodes; 64]; 8],
    /// By slot and node, where its path leads.
    rows: Vec<Vec<Nodes>>,
    /// By entry, the slot that it was given last.
    given: Vec<usize>,
    /// By entry, where it holds.
    holds: Vec<Nodes>,
}

impl<'a> Judge<'a> {
    fn new(keeper: Keeper, pattern: &'a Pattern, model: &'a Model) -> Judge<'a> {
        let (entries, nodes) = (pattern.entries.len(), model.nodes.len());
        let slots = Slots::new(pattern, nodes);
        let mut rows = vec![vec![0; nodes]; slots.count()];
        rows[0] = (0..nodes).map(|node| 1 << node).collect();
        let mut successors = [[0; 64]; 8];
        for &(from, axis, to) in &model.edges {
            successors[axis as usize][from as usize] |= 1 << to;
        }
        let (given, holds) = (vec![0; entries], vec![0; entries]);
        Judge { keeper, pattern, model, slots, successors, rows, given, holds }
    }

    fn finding(mut self) -> Finding {
        let entries = self.pattern.entries.iter().zip(self.pattern.reached()).enumerate();
        for (number, (entry, _)) in entries.filter(|(_, (_, reached))| *reached) {
            self.learn(number);
            if !entry.is_path() {
                self.holds[number] = self.nodes_where(|node| self.holds_at(entry, node));
            }
        }
        match self.holds[self.pattern.entries.len() - 1] {
            0 => Finding::Unmet,
            root => Finding::Met { lowest: root.trailing_zeros() as u16, number: root.count_ones() as u16 },
        }
    }

    /// The slots of the paths that a path goes on by, which is learned for itself or for another entry.
    fn built_on(&self, path: usize, for_itself: bool) -> Option<Vec<usize>> {
        let slot = if for_itself { self.keeper.built_on } else { self.keeper.back_on };
        self.slots.paths_of(path).into_iter().map(|path| slot(self, path)).collect()
    }

    /// The path entry by which a path goes on, the first of two.
    fn rest(&self, path: usize) -> Path {
        self.slots.paths_of(path).into_iter().flatten().next()
    }

    /// The last path entry before a path, or the path if there is none.
    fn path_before(&self, path: usize) -> usize {
        (0..path).rev().find(|&before| self.pattern.entries[before].is_path()).unwrap_or(path)
    }

    /// The row at this place of a path that goes on by the paths of these slots.
    fn row(&self, entry: &Entry, rests: &[usize], whole: Nodes, place: [usize; 2]) -> Nodes {
        let [_, node] = place;
        let of_rest = |node: usize| self.rows[rests[0]][node];
        match *entry {
            Entry::Step(axis, _) if (self.keeper.leads_alike)(self, axis, node) => self.row_before(place),
            Entry::Step(axis, _) => {
                let rows = members(self.successors(axis, node)).map(of_rest);
                rows.fold(0, |union, row| if whole & !union == 0 { union } else { union | row })
            }
            Entry::Jump(name, _) => of_rest(self.model.node_of(name)),
            Entry::Test(phi, _) => self.union(1 << node & self.holds[phi], of_rest),
            _ => rests.iter().fold(0, |ends, &rest| ends | self.rows[rest][node]),
        }
    }

    /// The row before a place: that of node 0 is the last of the slot before.
    fn row_before(&self, [slot, node]: [usize; 2]) -> Nodes {
        match node {
            0 => self.rows[slot - 1][self.model.nodes.len() - 1],
            _ => self.rows[slot][node - 1],
        }
    }

    /// Where the node before leads on an axis, and where the node.
    fn neighbours(&self, axis: u8, node: usize) -> Option<[Nodes; 2]> {
        let before = node.checked_sub(1)?;
        Some([before, node].map(|node| self.successors(axis, node)))
    }

    /// Whether the two sets agree in this.
    fn agree(&self, axis: u8, node: usize, of: fn(Nodes) -> u32) -> bool {
        self.neighbours(axis, node).is_some_and(|[before, own]| of(before) == of(own))
    }

    fn holds_at(&self, entry: &Entry, node: usize) -> bool {
        match *entry {
            Entry::Property(property) => self.model.nodes[node].properties >> property & 1 == 1,
            Entry::Name(name) => self.model.node_of(name) == node,
            Entry::Not(phi) => self.holds[phi] >> node & 1 == 0,
            Entry::Both(phi, psi) => (self.holds[phi] & self.holds[psi]) >> node & 1 == 1,
            Entry::Either(phi, psi) => (self.holds[phi] | self.holds[psi]) >> node & 1 == 1,
            Entry::After(axis, phi) => self.successors(axis, node) & self.holds[phi] != 0,
            Entry::Compare(comparison, channel, alpha, beta) => {
                let ends = (self.keeper.compared)(self, [alpha, beta], node);
                (self.keeper.some_pair)(self, comparison, channel, ends)
            }
            _ => false,
        }
    }

    fn some_pair(&self, comparison: Comparison, channel: u8, [left, right]: [Nodes; 2]) -> bool {
        let value = |node: usize| self.model.nodes[node].values[channel as usize];
        let partners = |node: usize| {
            self.nodes_where(|other| (value(other) == value(node)) == (comparison == Comparison::Same))
        };
        self.union(left, partners) & right != 0
    }

    /// The slot that a path was given last.
    fn given(&self, path: Path) -> usize {
        path.map_or(0, |path| self.given[path])
    }

    /// The first of two paths, or the second if that has no rows.
    fn held_of(&self, [path, other]: [Path; 2]) -> Path {
        if self.slots.hold(path) { path } else { other }
    }

    /// Where a path leads from a node, by its rows alone.
    fn by_rows(&self, path: Path, node: usize) -> Nodes {
        self.slots.of(path).map_or(0, |slot| self.rows[slot][node])
    }

    /// Where a path leads from a node, by the rows of the slot that it was given, if it was.
    fn stale(&self, path: Path, node: usize) -> Nodes {
        match self.given(path) {
            0 => self.ends(path, node),
            slot => self.rows[slot][node],
        }
    }

    /// Where a path leads from a node.
    fn ends(&self, path: Path, node: usize) -> Nodes {
        match (self.slots.of(path), path) {
            (Some(slot), _) => self.rows[slot][node],
            (None, path) => self.swept(path, node),
        }
    }

    /// The same without rows: what is pending at an entry moves on to the rest of its path.
    fn swept(&self, path: Path, node: usize) -> Nodes {
        let end = self.pattern.entries.len();
        let mut pending = vec![0; end + 1];
        pending[path.unwrap_or(end)] = 1 << node;
        for (number, entry) in self.pattern.entries.iter().enumerate().rev() {
            let nodes: Nodes = pending[number];
            let mut add = |path: Path, nodes: Nodes| pending[path.unwrap_or(end)] |= nodes;
            match *entry {
                Entry::Step(axis, alpha) => add(alpha, self.union(nodes, |node| self.successors(axis, node))),
                Entry::Jump(name, alpha) => add(alpha, self.union(nodes, |_| 1 << self.model.node_of(name))),
                Entry::Test(phi, alpha) => add(alpha, (self.keeper.passing)(nodes, self.holds[phi])),
                Entry::Fork(alpha, beta) => {
                    (self.keeper.sides)(alpha, beta).into_iter().for_each(|side| add(side, nodes));
                }
                _ => {}
            }
        }
        pending[end]
    }

    fn successors(&self, axis: u8, node: usize) -> Nodes {
        self.successors[axis as usize][node]
    }

    fn nodes_where(&self, is_so: impl Fn(usize) -> bool) -> Nodes {
        (0..self.model.nodes.len()).filter(|&node| is_so(node)).fold(0, |nodes, node| nodes | 1 << node)
    }

    fn union(&self, nodes: Nodes, of_node: impl Fn(usize) -> Nodes) -> Nodes {
        members(nodes).fold(0, |union, node| union | of_node(node))
    }
}

impl Learning for Judge<'_> {
    fn slots(&self) -> &Slots {
        &self.slots
    }

    fn brings_back(&self) -> bool {
        self.keeper.brings_back
    }

    fn passes_over(&self, path: usize, entry: usize) -> bool {
        self.built_on(path, path == entry).is_none() && !self.keeper.gives_anyway
    }

    /// Gives a path its rows, if it is built on paths that have theirs, also when it has a slot.
    fn fill(&mut self, Giving { path, entry, slot, .. }: Giving) {
        let slot = (self.keeper.next)(&self.slots, slot);
        self.slots.give(slot, None);
        let for_itself = path == entry;
        let filled = if for_itself { path } else { (self.keeper.brought_back)(self, path) };
        let rests = self.built_on(filled, for_itself);
        if let Some(rests) = rests.as_ref().filter(|_| for_itself || self.keeper.fills_again) {
            let whole = (self.keeper.whole)(self, rests[0]);
            for node in 0..self.model.nodes.len() {
                self.rows[slot][node] = self.row(&self.pattern.entries[filled], rests, whole, [slot, node]);
            }
        }
        if rests.is_some() || self.keeper.gives_anyway {
            self.slots.give(slot, Some((self.keeper.holder)(path)));
            self.given[path] = slot;
        }
    }
}

/// The nodes of a set, the lowest first.
fn members(nodes: Nodes) -> impl Iterator<Item = usize> {
    (0..64).filter(move |node| nodes >> node & 1 == 1)
}
