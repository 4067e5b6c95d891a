//! A judge of models that is right but for its working area: how long it must be, what of it is zeroed, or where in it
//! the sets of node entries are.

use super::model::Misreading;
use oracle::finding::{Finding, Refusal};
use oracle::model::{self, Model};
use oracle::pattern::{self, Entry, Pattern};
use trial::differential::implementation::{Lent, run_oracle};
use trial::generate::input::Operation;

/// The bytes of a set.
const SET: usize = 8;

#[derive(Clone, Copy)]
pub struct Judge {
    /// Whether it refuses an area of so many bytes, by the pattern, if that is read, and by what a long one gives.
    pub refuses: Refuses,
    /// Zeroes what it does of an area, which may be too short for it.
    pub zeroes: Zeroes,
}

type Refuses = fn(Option<&Pattern>, Finding, usize) -> bool;
type Zeroes = fn(&Pattern, Finding, &mut [u8]);

pub const RIGHT: Judge = Judge {
    refuses: |pattern, _, lent| pattern.is_some_and(|pattern| lent < model::area(pattern)),
    zeroes: |pattern, _, area| zero(area, 0, model::area(pattern)),
};

pub const OTHER_FINDINGS: [(&str, Refuses); 14] = [
    ("no area is refused", |_, _, _| false),
    ("2,040 bytes are wanted", |pattern, _, lent| pattern.is_some() && lent < model::AREA),
    ("paths count too", |pattern, _, lent| pattern.is_some_and(|pattern| lent < SET * pattern.entries.len())),
    ("what the root doesn't reach doesn't count", |pattern, _, lent| {
        pattern.is_some_and(|pattern| lent < model::area(&without_unreached(pattern)))
    }),
    ("what the root reaches counts, paths too", |pattern, _, lent| {
        pattern.is_some_and(|pattern| lent < SET * without_unreached(pattern).entries.len())
    }),
    ("paths count and nodes don't", |pattern, _, lent| {
        pattern.is_some_and(|pattern| lent < SET * (pattern.entries.len() - pattern.node_entries()))
    }),
    ("either doesn't count", |pattern, _, lent| {
        pattern.is_some_and(|pattern| lent < model::area(&without_either(pattern)))
    }),
    ("the bytes wanted aren't enough", |pattern, _, lent| {
        pattern.is_some_and(|pattern| lent <= model::area(pattern))
    }),
    ("a byte less is enough", |pattern, _, lent| {
        pattern.is_some_and(|pattern| lent + 1 < model::area(pattern))
    }),
    ("the root doesn't count", |pattern, _, lent| {
        pattern.is_some_and(|pattern| lent < model::area(pattern) - SET)
    }),
    ("the bytes wanted are counted in eight bits", |pattern, _, lent| {
        pattern.is_some_and(|pattern| lent < model::area(pattern) % 256)
    }),
    ("9 comes before the refusals of the pattern", |pattern, _, lent| {
        lent < pattern.map_or(SET, model::area)
    }),
    ("9 comes behind the refusals of the model", |pattern, found, lent| {
        !matches!(found, Finding::Refused(_)) && (RIGHT.refuses)(pattern, found, lent)
    }),
    ("9 comes behind 10", |pattern, found, lent| {
        !matches!(found, Finding::Refused(Refusal { number: 10, .. }))
            && (RIGHT.refuses)(pattern, found, lent)
    }),
];

pub const OTHER_BYTES: [(&str, Zeroes); 13] = [
    ("nothing", |_, _, _| {}),
    ("nothing where it is unmet", |pattern, found, area| {
        if found != Finding::Unmet {
            zero(area, 0, model::area(pattern));
        }
    }),
    ("one set too few", |pattern, _, area| zero(area, 0, model::area(pattern) - SET)),
    ("all sets but the first", |pattern, _, area| zero(area, SET, model::area(pattern))),
    ("no set for either", |pattern, _, area| zero(area, 0, model::area(&without_either(pattern)))),
    ("one byte too few", |pattern, _, area| zero(area, 0, model::area(pattern) - 1)),
    ("one byte too many", |pattern, _, area| zero(area, 0, model::area(pattern) + 1)),
    ("one set too many", |pattern, _, area| zero(area, 0, model::area(pattern) + SET)),
    ("2,040 bytes", |_, _, area| zero(area, 0, model::AREA)),
    ("the whole area", |_, _, area| area.fill(0)),
    ("a set for each entry", |pattern, _, area| zero(area, 0, SET * pattern.entries.len())),
    ("the sets of node entries at their own numbers", |pattern, _, area| {
        for number in node_entries(pattern) {
            zero(area, SET * number, SET * number + SET);
        }
    }),
    ("the sets of node entries that the root reaches", |pattern, _, area| {
        let reached = pattern.reached();
        for (place, _) in node_entries(pattern).enumerate().filter(|(_, number)| reached[*number]) {
            zero(area, SET * place, SET * place + SET);
        }
    }),
];

/// Where it has the set of a node entry, so that an entry loads the set that was put there last.
pub const MISPLACED: [Misreading; 6] = [
    ("the set of an entry at its number, in the bytes that are wanted", |pattern, _| {
        misplace(pattern, |pattern, number| number % pattern.node_entries());
    }),
    ("two sets at each place", |pattern, _| misplace(pattern, |pattern, number| place(pattern, number) / 2)),
    ("a set behind a path at the place of the one before", |pattern, _| {
        misplace(pattern, |pattern, number| {
            let behind_path = number > 0 && pattern.entries[number - 1].is_path();
            place(pattern, number).saturating_sub(behind_path.into())
        });
    }),
    ("the set of the entry before counts as its own", |pattern, _| {
        misplace(pattern, |pattern, number| place(pattern, number).saturating_sub(1));
    }),
    ("the set of either at the place of the one before, as if it were a path", |pattern, _| {
        misplace(pattern, |pattern, number| {
            let is_before = |earlier: &usize| *earlier < number;
            let nodes = node_entries(pattern).take_while(is_before);
            nodes.filter(|&node| !is_either(&pattern.entries[node])).count()
        });
    }),
    ("64 places", |pattern, _| misplace(pattern, |pattern, number| place(pattern, number) % 64)),
];

/// A judge that has each set at its place.
pub fn in_place(pattern: &mut Pattern, _: &mut Model) {
    misplace(pattern, place);
}

/// What it answers if it is asked how many bytes a pattern file wants, with the words for it.
pub type Answer = (&'static str, fn(&[u8]) -> usize);

pub const ASKED: [Answer; 9] = [
    ("2,040 of every pattern", |file| pattern::parse(file).map_or(0, |_| model::AREA)),
    ("2,040 of a pattern that is refused", |file| {
        pattern::parse(file).map_or(model::AREA, |pattern| model::area(&pattern))
    }),
    ("those of a pattern that is refused counted all the same", |file| {
        let kinds = file.get(6..).unwrap_or_default().chunks_exact(4).map(|entry| entry[0]);
        SET * kinds.filter(|kind| matches!(kind, 1..=7 | 12)).count()
    }),
    ("a root that is a path passes", |file| match pattern::parse(file) {
        Err(Refusal { number: 8, place }) => SET * place as usize,
        _ => model::area_wanted(file),
    }),
    ("paths count too", |file| pattern::parse(file).map_or(0, |pattern| SET * pattern.entries.len())),
    ("what the root doesn't reach doesn't count", |file| {
        pattern::parse(file).map_or(0, |pattern| model::area(&without_unreached(&pattern)))
    }),
    ("either doesn't count", |file| {
        pattern::parse(file).map_or(0, |pattern| model::area(&without_either(&pattern)))
    }),
    ("node entries instead of bytes", |file| model::area_wanted(file) / SET),
    ("in eight bits", |file| model::area_wanted(file) % 256),
];

/// As an implementation that answers so.
pub fn asked(bytes: fn(&[u8]) -> usize, operation: Operation, lent: Lent) -> Finding {
    match operation {
        Operation::Area => Finding::Area { bytes: bytes(lent.pattern) },
        _ => run_oracle(operation, lent),
    }
}

impl Judge {
    /// As an implementation: all but the area is left to the oracle.
    pub fn run(self, operation: Operation, Lent { pattern, proposal, area }: Lent) -> Finding {
        if !matches!(operation, Operation::Model | Operation::Ordered) {
            return run_oracle(operation, Lent { pattern, proposal, area });
        }
        let read = pattern::parse(pattern).ok();
        let found = run_oracle(operation, Lent { pattern, proposal, area: &mut [0; model::AREA] });
        if (self.refuses)(read.as_ref(), found, area.len()) {
            return Finding::Refused(Refusal { number: 9, place: 0 });
        }
        if let (Some(pattern), Finding::Met { .. } | Finding::Unmet) = (read, found) {
            (self.zeroes)(&pattern, found, area);
        }
        found
    }
}

/// Zeroes these bytes of an area, as far as it goes.
fn zero(area: &mut [u8], first: usize, end: usize) {
    let length = area.len();
    area[first.min(length)..end.min(length)].fill(0);
}

/// The numbers of the node entries.
fn node_entries(pattern: &Pattern) -> impl Iterator<Item = usize> {
    (0..pattern.entries.len()).filter(|&number| !pattern.entries[number].is_path())
}

/// The entries that the root reaches.
fn without_unreached(pattern: &Pattern) -> Pattern {
    let entries = pattern.entries.iter().zip(pattern.reached());
    Pattern { entries: entries.filter(|(_, reached)| *reached).map(|(entry, _)| *entry).collect() }
}

fn is_either(entry: &Entry) -> bool {
    matches!(entry, Entry::Either(..))
}

/// The entries other than either, whose kind stands behind the paths.
fn without_either(pattern: &Pattern) -> Pattern {
    Pattern { entries: pattern.entries.iter().copied().filter(|entry| !is_either(entry)).collect() }
}

/// The place of an entry's set: behind those of the node entries before it.
fn place(pattern: &Pattern, number: usize) -> usize {
    node_entries(pattern).take_while(|&earlier| earlier < number).count()
}

/// Makes each entry refer to the node entry whose set is in that place when it is computed: the last one put there, of
/// those that the root reaches.
fn misplace(pattern: &mut Pattern, place: fn(&Pattern, usize) -> usize) {
    let (right, reached) = (pattern.clone(), pattern.reached());
    let places: Vec<usize> = (0..right.entries.len()).map(|number| place(&right, number)).collect();
    let nodes: Vec<usize> = node_entries(&right).filter(|&number| reached[number]).collect();
    for (number, entry) in pattern.entries.iter_mut().enumerate().filter(|(number, _)| reached[*number]) {
        let found = |phi: usize| {
            let mut there =
                nodes.iter().copied().filter(|&node| node < number && places[node] == places[phi]);
            there.next_back().expect("the root reaches what it refers to")
        };
        *entry = match *entry {
            Entry::Not(phi) => Entry::Not(found(phi)),
            Entry::Both(phi, psi) => Entry::Both(found(phi), found(psi)),
            Entry::Either(phi, psi) => Entry::Either(found(phi), found(psi)),
            Entry::After(axis, phi) => Entry::After(axis, found(phi)),
            Entry::Test(phi, alpha) => Entry::Test(found(phi), alpha),
            entry => entry,
        };
    }
}
