//! The working area of judging a model: what an input shows of the bytes that are wanted and of those that are lent.

use super::either::is_path;
use super::limits::{Judged, Limit};
use super::rows::Kept;
use oracle::finding::Finding;
use oracle::model::AREA;
use oracle::pattern::{self, Entry, Pattern};

/// The bytes that are wanted for a node entry.
pub(super) const SET: usize = 8;

pub const AREAS: [Limit; 22] = [
    ("found in as many bytes as wanted", |it| it.found_over(0)),
    ("found in a byte more than wanted", |it| it.found_over(1)),
    ("found in a set more than wanted", |it| it.found_over(SET)),
    ("found in 2,040 bytes, fewer wanted", |it| it.found_in_more_than_enough()),
    ("found in fewer than 2,040 bytes, but more than wanted", |it| {
        it.found() && (it.wanted() + 1..AREA).contains(&it.lent())
    }),
    ("found in fewer bytes than 8 for each entry, paths among them", |it| {
        it.found() && it.lent() < SET * it.entries().len()
    }),
    ("refused 9 in a byte less than wanted", |it| it.short_by(1)),
    ("refused 9 in a set less than wanted", |it| it.short_by(SET)),
    ("refused 9 in 7 bytes less than wanted", |it| it.short_by(SET - 1)),
    ("refused 9 in 8 bytes for each node entry that the root reaches", |it| {
        it.refused(9) && it.lent() == SET * nodes_reached(&it.pattern())
    }),
    ("found in as many bytes as wanted, either among the entries", |it| {
        it.found_over(0) && it.wanted_but_either() < it.wanted()
    }),
    ("refused 9 in 8 bytes for each node entry but either", |it| {
        it.refused(9) && it.lent() == it.wanted_but_either()
    }),
    ("refused 9 without an area", |it| it.refused(9) && it.lent() == 0),
    ("one node entry found in 8 bytes", |it| it.found() && it.wanted() == 8 && it.lent() == 8),
    ("one node entry refused 9 in 7 bytes", |it| it.refused(9) && it.wanted() == 8 && it.lent() == 7),
    ("255 node entries found in 2,040 bytes", |it| it.found() && it.wanted() == 2040 && it.lent() == 2040),
    ("255 node entries refused 9 in 2,039 bytes", |it| {
        it.refused(9) && it.wanted() == 2040 && it.lent() == 2039
    }),
    ("set of a node entry behind a path used", |it| it.uses_a_set_behind(|entry, _| entry.is_path())),
    ("set of a node entry behind one that the root doesn't reach used", |it| {
        it.uses_a_set_behind(|entry, reached| !entry.is_path() && !reached)
    }),
    ("pattern refused without an area", |it| {
        it.lent() == 0 && matches!(it.finding, Finding::Refused(refusal) if refusal.number < 9)
    }),
    ("model refused 9 that 10 would be given of", |it| it.refused(9) && it.input.proposal.len() < 9),
    ("model refused 10 in as many bytes as wanted", |it| it.refused(10) && it.lent() == it.wanted()),
];

pub const WANTED: [Limit; 12] = [
    ("none of a pattern refused 1", |it| it.wants_none(1)),
    ("none of a pattern refused 2", |it| it.wants_none(2)),
    ("none of a pattern refused 3", |it| it.wants_none(3)),
    ("none of a pattern refused 4", |it| it.wants_none(4)),
    ("none of a pattern refused 5", |it| it.wants_none(5)),
    ("none of a pattern refused 6", |it| it.wants_none(6)),
    ("none of a pattern refused 7", |it| it.wants_none(7)),
    ("none of a pattern refused 8", |it| it.wants_none(8)),
    ("fewer than 8 for each entry, paths among them", |it| {
        it.asked().is_some_and(|bytes| bytes < SET * it.entries().len())
    }),
    ("more than 8 for each node entry but either", |it| {
        it.asked().is_some_and(|bytes| bytes > it.wanted_but_either())
    }),
    ("8 of 255 entries", |it| it.asked() == Some(8) && it.entries().len() == 255),
    ("more than 8 for each node entry that the root reaches", |it| {
        it.asked().is_some_and(|bytes| bytes > SET * nodes_reached(&it.pattern()))
    }),
];

/// The node entries that the root reaches.
fn nodes_reached(pattern: &Pattern) -> usize {
    let entries = pattern.entries.iter().zip(pattern.reached());
    entries.filter(|(entry, reached)| *reached && !entry.is_path()).count()
}

impl Judged<'_> {
    /// The bytes that are wanted for a pattern that was read.
    fn wanted(&self) -> usize {
        SET * self.entries().iter().filter(|entry| !is_path(entry)).count()
    }

    /// The bytes that would be wanted if entries of either, whose kind stands behind the paths, were paths.
    fn wanted_but_either(&self) -> usize {
        SET * self.entries().iter().filter(|entry| entry[0] < 8).count()
    }

    fn lent(&self) -> usize {
        self.input.area.length
    }

    /// Whether a model was judged in so many bytes more than are wanted.
    pub(super) fn found_over(&self, by: usize) -> bool {
        self.found() && self.lent() == self.wanted() + by
    }

    /// Whether a model was judged in the bytes that are always enough, where fewer are.
    pub(super) fn found_in_more_than_enough(&self) -> bool {
        self.found() && self.wanted() < AREA && self.lent() == AREA
    }

    /// Whether a model was refused 9 in so many bytes less than are wanted.
    pub(super) fn short_by(&self, by: usize) -> bool {
        self.refused(9) && self.lent() + by == self.wanted()
    }

    /// The pattern, which was read.
    fn pattern(&self) -> Pattern {
        pattern::parse(&self.input.pattern).expect("it was read")
    }

    /// Whether a model was judged in which an entry that the root reaches refers to a node entry behind such an entry,
    /// reached or not.
    fn uses_a_set_behind(&self, is_such: fn(&Entry, bool) -> bool) -> bool {
        let Some(pattern) = self.paths.as_ref().map(Kept::pattern) else { return false };
        let reached = pattern.reached();
        let entries = || pattern.entries.iter().zip(&reached);
        let Some(first) = entries().position(|(entry, reached)| is_such(entry, *reached)) else {
            return false;
        };
        let mut used = entries().filter(|(_, reached)| **reached).flat_map(|(entry, _)| entry.references());
        used.any(|entry| entry > first && !pattern.entries[entry].is_path())
    }

    /// The bytes that were said to be wanted, of a pattern that was read.
    fn asked(&self) -> Option<usize> {
        match self.finding {
            Finding::Area { bytes } if bytes > 0 => Some(bytes),
            _ => None,
        }
    }

    /// Whether no bytes were said to be wanted of a pattern with this refusal.
    fn wants_none(&self, number: u16) -> bool {
        let refusal = || pattern::parse(&self.input.pattern).err();
        self.finding == Finding::Area { bytes: 0 }
            && refusal().is_some_and(|refusal| refusal.number == number)
    }
}
