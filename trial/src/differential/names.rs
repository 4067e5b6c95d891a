//! A pattern's names and those that a model lists: what an input shows of the two together; and what each
//! name must show in a run.

use super::limits::{Judged, Limit};
use crate::generate::input::{Never, Operation};
use oracle::finding::Finding;
use oracle::pattern;

pub const NAMES: [Limit; 14] = [
    ("met, names used", |it| matches!(it.finding, Finding::Met { .. }) && it.used() != 0),
    ("unmet, names used", |it| it.finding == Finding::Unmet && it.used() != 0),
    ("no name used and none listed, found", |it| it.found() && it.used() | it.listed() == 0),
    ("a name listed beside those used, found", |it| it.found() && it.used() != 0 && it.used() != it.listed()),
    ("all 128 names used, found", |it| it.found() && it.used() == u128::MAX),
    ("one of 128 names used refused 27", |it| it.refused(27) && it.used() == u128::MAX),
    ("name by itself refused 27", |it| it.missing_in(|entry| entry[0] == 2)),
    ("name of jumps alone refused 27", |it| it.missing_in(|entry| entry[0] == 9)),
    ("name that the root doesn't reach refused 27", |it| it.missing_unreached()),
    ("lowest of several names refused 27", |it| it.refused(27) && it.missing().count_ones() > 1),
    ("name above one that is listed refused 27", |it| {
        it.place(27).is_some_and(|name| it.used() & it.listed() & ((1 << name) - 1) != 0)
    }),
    ("pattern with a closed tableau refused 27", |it| it.refused(27) && it.input.never == Some(Never::Met)),
    ("edge refused 14 where a name is missing too", |it| it.refused(14) && it.missing() != 0),
    ("name record refused 13 where a name is missing too", |it| {
        it.name_refused().is_some() && it.missing() != 0
    }),
];

/// What a run must see of a name, in words, and the name of which an input shows it.
pub type OfName = (&'static str, fn(&Judged) -> Option<usize>);

/// What a run must see of each of the 128 names.
pub const EACH_NAME: [OfName; 4] = [
    ("refused 27", |it| it.place(27).filter(|_| it.input.operation == Operation::Model)),
    ("refused 18", |it| it.at_start().map(|had| had.name.into())),
    ("of the branch refused 22", |it| it.on_branch().map(|had| had.name.into())),
    ("of the pattern refused 22", |it| it.in_pattern().map(|had| had.name.into())),
];

impl Judged<'_> {
    /// The names that the pattern uses, as a set of bits.
    pub(super) fn used(&self) -> u128 {
        self.having_names().fold(0, |names, entry| names | 1 << entry[1])
    }

    /// The entries of a pattern that was read that have a name.
    fn having_names(&self) -> impl Iterator<Item = &[u8]> {
        self.input.pattern[6..].chunks_exact(4).filter(|entry| matches!(entry[0], 2 | 9))
    }

    /// The names in range that the model's records have.
    fn listed(&self) -> u128 {
        self.names().filter(|record| record[0] < 128).fold(0, |names, record| names | 1 << record[0])
    }

    pub(super) fn missing(&self) -> u128 {
        self.used() & !self.listed()
    }

    /// Whether a name was refused 27 and all entries that have it are such.
    fn missing_in(&self, is_such: fn(&[u8]) -> bool) -> bool {
        let has = |name: usize| move |entry: &&[u8]| entry[1] as usize == name;
        self.place(27).is_some_and(|name| self.having_names().filter(has(name)).all(is_such))
    }

    /// Whether a name was refused 27 and the root reaches no entry that has it.
    fn missing_unreached(&self) -> bool {
        let Some(name) = self.place(27) else { return false };
        let pattern = pattern::parse(&self.input.pattern).expect("it was read");
        let mut entries = pattern.entries.iter().zip(pattern.reached());
        entries.all(|(entry, reached)| !reached || entry.name() != Some(name as u8))
    }
}
