//! The entries of a text, completed rightly but for one thing.

use oracle::pattern::{Entry, Path};
use oracle::typed::{NodeText, PartText};
use std::cell::Cell;

/// Which paths of a brace are continued by what follows it.
#[derive(Clone, Copy, PartialEq, Eq)]
pub enum Continues {
    Both,
    First,
    Second,
    Neither,
}

/// How entries are completed.
#[derive(Clone, Copy)]
pub struct Completer {
    pub continues: Continues,
    /// The number of an entry that stands already.
    pub number: fn(&[Entry], Entry) -> Option<usize>,
    pub rest_before_node: bool,
    pub second_path_first: bool,
    pub second_node_first: bool,
    pub right_row_first: bool,
    pub drops_equal_paths: bool,
    pub drops_equal_nodes: bool,
}

pub const RIGHT: Completer = Completer {
    continues: Continues::Both,
    number: |entries, entry| entries.iter().position(|&earlier| earlier == entry),
    rest_before_node: false,
    second_path_first: false,
    second_node_first: false,
    right_row_first: false,
    drops_equal_paths: false,
    drops_equal_nodes: false,
};

/// What a row goes on with, behind a brace, and what that was completed to.
struct Rest<'a> {
    row: &'a [PartText],
    rest: Option<&'a Rest<'a>>,
    completed: Cell<Option<Path>>,
}

/// The entries so far.
struct Draft {
    completer: Completer,
    entries: Vec<Entry>,
}

impl Completer {
    /// The entries of a text.
    pub fn entries(self, text: &NodeText) -> Vec<Entry> {
        let mut draft = Draft { completer: self, entries: Vec::new() };
        draft.node(text);
        draft.entries
    }
}

/// Two things in turn, the second first if that is so.
fn in_turn<T, U>(
    draft: &mut Draft,
    swapped: bool,
    one: impl Fn(&mut Draft) -> T,
    other: impl Fn(&mut Draft) -> U,
) -> (T, U) {
    if swapped {
        let second = other(draft);
        (one(draft), second)
    } else {
        (one(draft), other(draft))
    }
}

impl Draft {
    fn node(&mut self, text: &NodeText) -> usize {
        let entry = match text {
            NodeText::Property(property) => Entry::Property(*property),
            NodeText::Name(name) => Entry::Name(*name),
            NodeText::Not(phi) => Entry::Not(self.node(phi)),
            NodeText::After(axis, phi) => Entry::After(*axis, self.node(phi)),
            NodeText::Both(phi, psi) | NodeText::Either(phi, psi) => {
                let second_first = self.completer.second_node_first;
                let (phi, psi) = in_turn(self, second_first, |it| it.node(phi), |it| it.node(psi));
                if self.completer.drops_equal_nodes && phi == psi {
                    return phi;
                }
                if matches!(text, NodeText::Both(..)) {
                    Entry::Both(phi, psi)
                } else {
                    Entry::Either(phi, psi)
                }
            }
            NodeText::Compare(comparison, channel, left, right) => {
                let right_first = self.completer.right_row_first;
                let (alpha, beta) =
                    in_turn(self, right_first, |it| it.row(left, None), |it| it.row(right, None));
                Entry::Compare(*comparison, *channel, alpha, beta)
            }
        };
        self.once(entry)
    }

    /// A row with the rest behind it.
    fn row(&mut self, row: &[PartText], rest: Option<&Rest>) -> Path {
        let Some((part, row)) = row.split_first() else { return self.rest(rest) };
        let entry = match part {
            PartText::Step(axis) => Entry::Step(*axis, self.row(row, rest)),
            PartText::Jump(name) => Entry::Jump(*name, self.row(row, rest)),
            PartText::Test(phi) => {
                let rest_first = self.completer.rest_before_node;
                let (phi, alpha) = in_turn(self, rest_first, |it| it.node(phi), |it| it.row(row, rest));
                Entry::Test(phi, alpha)
            }
            PartText::Brace(left, right) => {
                let (alpha, beta) =
                    self.paths([left, right], &Rest { row, rest, completed: Cell::new(None) });
                if self.completer.drops_equal_paths && alpha == beta {
                    return alpha;
                }
                Entry::Fork(alpha, beta)
            }
        };
        Some(self.once(entry))
    }

    /// The paths of a brace, with what follows it behind them.
    fn paths(&mut self, [left, right]: [&[PartText]; 2], behind: &Rest) -> (Path, Path) {
        let Completer { continues, second_path_first, .. } = self.completer;
        let rest_of = |which| (continues == Continues::Both || continues == which).then_some(behind);
        let (first, second) = (rest_of(Continues::First), rest_of(Continues::Second));
        in_turn(self, second_path_first, |it| it.row(left, first), |it| it.row(right, second))
    }

    fn rest(&mut self, rest: Option<&Rest>) -> Path {
        let Rest { row, rest, completed } = rest?;
        let path = completed.get().unwrap_or_else(|| self.row(row, *rest));
        completed.set(Some(path));
        path
    }

    fn once(&mut self, entry: Entry) -> usize {
        (self.completer.number)(&self.entries, entry).unwrap_or_else(|| {
            self.entries.push(entry);
            self.entries.len() - 1
        })
    }
}
