//! The entries of a text: "each entry stands after its parts, which are completed in the order of its fields x, y, z;
//! each different entry stands once, at its first completion; the root is last".

use super::{NodeText, PartText};
use crate::pattern::{Entry, Path};
use std::cell::Cell;

/// The text's entries, however many.
pub fn entries_of(text: &NodeText) -> Vec<Entry> {
    let mut file = File { entries: Vec::new() };
    file.node(text);
    file.entries
}

/// What a row goes on with behind its last part.
enum Rest<'a> {
    End,
    /// Behind a brace: "what follows a brace continues both of its paths". The second path finds what the first one
    /// completed, so that nothing is gone through twice.
    Row {
        row: &'a [PartText],
        rest: &'a Rest<'a>,
        completed: Cell<Option<Path>>,
    },
}

struct File {
    entries: Vec<Entry>,
}

impl File {
    /// Completes a node text, and gives its entry.
    fn node(&mut self, text: &NodeText) -> usize {
        let entry = match text {
            NodeText::Property(property) => Entry::Property(*property),
            NodeText::Name(name) => Entry::Name(*name),
            NodeText::Not(phi) => Entry::Not(self.node(phi)),
            NodeText::Both(phi, psi) => Entry::Both(self.node(phi), self.node(psi)),
            NodeText::Either(phi, psi) => Entry::Either(self.node(phi), self.node(psi)),
            NodeText::After(axis, phi) => Entry::After(*axis, self.node(phi)),
            NodeText::Compare(comparison, channel, left, right) => {
                let (alpha, beta) = (self.row(left, &Rest::End), self.row(right, &Rest::End));
                Entry::Compare(*comparison, *channel, alpha, beta)
            }
        };
        self.once(entry)
    }

    /// Completes a row with the rest behind it, and gives the path.
    fn row(&mut self, row: &[PartText], rest: &Rest) -> Path {
        let Some((part, row)) = row.split_first() else {
            return self.rest(rest);
        };
        let entry = match part {
            PartText::Step(axis) => Entry::Step(*axis, self.row(row, rest)),
            PartText::Jump(name) => Entry::Jump(*name, self.row(row, rest)),
            PartText::Test(phi) => Entry::Test(self.node(phi), self.row(row, rest)),
            PartText::Brace(left, right) => {
                let behind = Rest::Row { row, rest, completed: Cell::new(None) };
                Entry::Fork(self.row(left, &behind), self.row(right, &behind))
            }
        };
        Some(self.once(entry))
    }

    /// Completes the rest behind a row, unless it has been.
    fn rest(&mut self, rest: &Rest) -> Path {
        let Rest::Row { row, rest, completed } = rest else {
            return None;
        };
        let path = completed.get().unwrap_or_else(|| self.row(row, rest));
        completed.set(Some(path));
        path
    }

    /// The number of an entry that stands already, or of a new one at the end.
    fn once(&mut self, entry: Entry) -> usize {
        self.entries.iter().position(|&earlier| earlier == entry).unwrap_or_else(|| {
            self.entries.push(entry);
            self.entries.len() - 1
        })
    }
}
