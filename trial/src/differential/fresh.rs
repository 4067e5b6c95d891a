//! Names that a tableau asks for, its start name and those that must be fresh: what an input shows of the
//! search of a branch, and of the names that the pattern uses.
//!
//! A name that the pattern lacks comes to a branch as the start name, which lines 0 and 1 have, or by rule 5
//! or 14: on an axis line, and as first or left name on the line behind it. So, but for a branch of one line,
//! no finding tells a search of whole lines from one that leaves out a line, all axis lines, all comparisons
//! or second names.

use super::limits::{Judged, Limit};
use crate::generate::input::Input;
use oracle::finding::{Finding, Refusal};
use oracle::pattern::{self, Entry, MAX_NAME};
use oracle::tableau;
use oracle::tableau::line::Line;
use oracle::tableau::rules::{brings_name, says_clash, says_fork};
use oracle::tableau::walk::Walk;
use std::slice::ChunksExact;

pub const FRESH: [Limit; 19] = [
    ("name of a branch of one line refused 22", |it| it.on_branch().is_some_and(|had| had.length == 1)),
    ("start name on three lines or more refused 22", |it| {
        it.on_branch().is_some_and(|had| had.length > 2 && had.first() == 0)
    }),
    ("name of the last two lines alone refused 22", |it| {
        it.on_branch().is_some_and(|had| had.length > 2 && had.first() + 2 == had.length)
    }),
    ("name of two lines in between alone refused 22", |it| {
        it.on_branch()
            .is_some_and(|had| had.first() > 0 && had.lines.len() == 2 && had.first() + 2 < had.length)
    }),
    ("name of no line before line 256 refused 22", |it| it.on_branch().is_some_and(|had| had.first() >= 256)),
    ("name of an axis line and a line of has alone refused 22", |it| {
        it.on_branch()
            .is_some_and(|had| matches!(had.lines[..], [(_, Line::Edge { .. }), (_, Line::Has { .. })]))
    }),
    ("name of an axis line and a comparison alone refused 22", |it| {
        it.on_branch()
            .is_some_and(|had| matches!(had.lines[..], [(_, Line::Edge { .. }), (_, Line::Compare { .. })]))
    }),
    ("name by itself refused 22", |it| it.in_pattern().is_some_and(Had::by_itself)),
    ("name of jumps alone refused 22", |it| it.in_pattern().is_some_and(Had::of_jumps)),
    ("name that the root doesn't reach refused 22", |it| it.in_pattern().is_some_and(|had| !had.reached)),
    ("name of the first entry alone refused 22", |it| it.in_pattern().is_some_and(|had| had.is_at(0))),
    ("name by itself refused 18", |it| it.at_start().is_some_and(Had::by_itself)),
    ("name of jumps alone refused 18", |it| it.at_start().is_some_and(Had::of_jumps)),
    ("name that the root doesn't reach refused 18", |it| it.at_start().is_some_and(|had| !had.reached)),
    ("name of the root alone refused 18", |it| it.at_start().is_some_and(|had| had.is_at(had.root))),
    ("start name 64 apart from a name used, closed", |it| {
        it.closed() && it.used() & apart(1 << it.input.proposal[5]) != 0
    }),
    ("fresh name 64 apart from a name used, closed", |it| {
        it.brought.names != 0 && it.used() & apart(it.brought.names) != 0
    }),
    ("fresh name 64 apart from a name of the branch, closed", |it| it.brought.beside != 0),
    ("name fresh on both sides of a fork, closed", |it| it.brought.again != 0),
];

/// The branch to which the steps before this one lead, of which none is refused.
pub fn branch_before(input: &Input, place: usize) -> Vec<Line> {
    let pattern = pattern::parse(&input.pattern).expect("it was read");
    let tableau = tableau::parse(&pattern, &input.proposal).expect("its steps were walked");
    let mut walk = Walk::begin(&pattern, tableau.start);
    for step in &tableau.steps[..place] {
        walk.take(step).expect("only a later one is refused");
    }
    walk.branch().to_vec()
}

/// The names 64 above or below these.
fn apart(names: u128) -> u128 {
    names.rotate_left(64)
}

/// A name that was refused 18 or 22: where the pattern has it, and where the branch has it.
pub struct Had {
    pub name: u8,
    entries: Vec<(usize, Entry)>,
    root: usize,
    /// Whether the root reaches one of the entries.
    reached: bool,
    lines: Vec<(usize, Line)>,
    /// How many lines the branch has: none before line 0.
    length: usize,
}

impl Had {
    /// The name that was refused in the input, if one was.
    pub fn of(input: &Input, finding: Finding) -> Option<Had> {
        match finding {
            Finding::Refused(Refusal { number: 18, .. }) if input.proposal[5] <= MAX_NAME => {
                Some(Had::in_entries(input, input.proposal[5]))
            }
            Finding::Refused(Refusal { number: 22, place }) => Some(Had::at_step(input, place.into())),
            _ => None,
        }
    }

    /// A name, before any line.
    fn in_entries(input: &Input, name: u8) -> Had {
        let pattern = pattern::parse(&input.pattern).expect("it was read");
        let (reached, root) = (pattern.reached(), pattern.entries.len() - 1);
        let mut entries: Vec<_> = pattern.entries.into_iter().enumerate().collect();
        entries.retain(|(_, entry)| entry.name() == Some(name));
        let reached = entries.iter().any(|&(number, _)| reached[number]);
        Had { name, entries, root, reached, lines: Vec::new(), length: 0 }
    }

    /// The name that the step should bring, on the branch to which the steps before it lead.
    fn at_step(input: &Input, place: usize) -> Had {
        let step = &input.proposal[tableau::HEADER_BYTES + tableau::STEP_BYTES * place..];
        let (name, branch) = (step[5], branch_before(input, place));
        let length = branch.len();
        let mut lines: Vec<_> = branch.into_iter().enumerate().collect();
        lines.retain(|(_, line)| line.has_name(name));
        Had { lines, length, ..Had::in_entries(input, name) }
    }

    /// The first line that has it.
    fn first(&self) -> usize {
        self.lines[0].0
    }

    fn by_itself(&self) -> bool {
        self.entries.iter().all(|(_, entry)| matches!(entry, Entry::Name(_)))
    }

    fn of_jumps(&self) -> bool {
        self.entries.iter().all(|(_, entry)| matches!(entry, Entry::Jump(..)))
    }

    /// Whether only this entry has it.
    fn is_at(&self, number: usize) -> bool {
        self.entries.iter().all(|entry| entry.0 == number)
    }
}

/// The names that a closed tableau brings, as sets of bits.
#[derive(Default)]
pub struct Brought {
    names: u128,
    /// Those brought to a branch that has the name 64 apart.
    beside: u128,
    /// Those brought on both sides of a fork.
    again: u128,
}

impl Brought {
    /// What the input brings, if it is closed.
    pub fn of(input: &Input, finding: Finding) -> Brought {
        match finding {
            Finding::Closed { .. } => {
                let mut steps = input.proposal[tableau::HEADER_BYTES..].chunks_exact(tableau::STEP_BYTES);
                Brought::by(&mut steps, 1 << input.proposal[5])
            }
            _ => Brought::default(),
        }
    }

    /// What steps bring to a branch that has these names, until it is closed.
    fn by(steps: &mut ChunksExact<u8>, mut on_branch: u128) -> Brought {
        let mut brought = Brought::default();
        while let Some(step) = steps.next().filter(|step| !says_clash(step[0])) {
            if says_fork(step[0]) {
                let (left, right) = (Brought::by(steps, on_branch), Brought::by(steps, on_branch));
                brought.again = left.names & right.names;
                return brought.and(left).and(right);
            }
            if brings_name(step[0]) {
                let name = 1 << step[5];
                brought.names |= name;
                brought.beside |= name & apart(on_branch);
                on_branch |= name;
            }
        }
        brought
    }

    fn and(self, other: Brought) -> Brought {
        Brought {
            names: self.names | other.names,
            beside: self.beside | other.beside,
            again: self.again | other.again,
        }
    }
}

impl Judged<'_> {
    /// The start name that was refused 18 because the pattern uses it.
    pub(super) fn at_start(&self) -> Option<&Had> {
        self.had.as_ref().filter(|_| self.refused(18))
    }

    /// The name that was refused 22 because the branch has it: the pattern lacks it.
    pub(super) fn on_branch(&self) -> Option<&Had> {
        self.had.as_ref().filter(|had| self.refused(22) && had.entries.is_empty())
    }

    /// The name that was refused 22 because the pattern uses it: the branch lacks it.
    pub(super) fn in_pattern(&self) -> Option<&Had> {
        self.had.as_ref().filter(|had| self.refused(22) && had.lines.is_empty())
    }
}
