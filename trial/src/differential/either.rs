//! Either: what an input shows of its entries, of where its parts hold, and of rules 24 and 25.

use super::fresh::branch_before;
use super::limits::{Judged, Limit};
use super::rows::Kept;
use crate::generate::input::{Input, Never};
use oracle::finding::{Finding, Refusal};
use oracle::model::{self, NodeSet, node_sets};
use oracle::pattern::{self, Entry, Pattern};
use oracle::tableau;
use oracle::tableau::line::Line;
use oracle::tableau::rules::{LAST_RULE, says_clash, says_fork};
use oracle::tableau::walk::Walk;

/// The kind of either.
const KIND: u8 = 12;

/// The rules for a name that has either, and for one that lacks it.
const HAS: u8 = 24;
const LACKS: u8 = 25;

pub const ENTRIES: [Limit; 17] = [
    ("read as the root", |it| it.read_of(|_, number, all| number + 1 == all.len())),
    ("read, of two equal parts", |it| it.read_of(|entry, _, _| entry[1] == entry[2])),
    ("read, of either", |it| it.read_of(|entry, _, all| all[entry[1] as usize][0] == KIND)),
    ("read behind a path", |it| it.read_of(|_, number, all| number > 0 && is_path(&all[number - 1]))),
    ("read beside both of the same parts", |it| {
        it.read_of(|[_, x, y, z], _, all| all.contains(&[4, x, y, z]))
    }),
    ("the kind behind it refused 4", |it| it.entry_refused(4).is_some_and(|[kind, _]| kind == KIND + 1)),
    ("refused 5, z not zero", |it| it.either_refused(5).is_some()),
    ("refused 6, first part a path", |it| it.refused_for(0, is_path_at)),
    ("refused 6, second part a path", |it| it.refused_for(1, is_path_at)),
    ("refused 6, first part itself", |it| it.refused_for(0, |_, own, part| part == own)),
    ("refused 6, second part itself", |it| it.refused_for(1, |_, own, part| part == own)),
    ("refused 6, first part a later node", |it| it.refused_for(0, is_later_node)),
    ("refused 6, second part a later node", |it| it.refused_for(1, is_later_node)),
    ("refused 6, first part the end of path", |it| it.refused_for(0, |_, _, part| part == 255)),
    ("refused 6, second part the end of path", |it| it.refused_for(1, |_, _, part| part == 255)),
    ("taken for a path refused 6", |it| it.refused_as_path()),
    ("repeat refused 7", |it| it.either_refused(7).is_some()),
];

pub const MEANING: [Limit; 17] = [
    ("met, the root either", |it| matches!(it.finding, Finding::Met { .. }) && it.root_is_either()),
    ("unmet, the root either", |it| it.finding == Finding::Unmet && it.root_is_either()),
    ("part of not", |it| it.is_part_of(|entry| matches!(entry, Entry::Not(_)))),
    ("part of both", |it| it.is_part_of(|entry| matches!(entry, Entry::Both(..)))),
    ("part of either", |it| it.is_part_of(|entry| matches!(entry, Entry::Either(..)))),
    ("part of after", |it| it.is_part_of(|entry| matches!(entry, Entry::After(..)))),
    ("part of a test", |it| it.is_part_of(|entry| matches!(entry, Entry::Test(..)))),
    ("two equal parts", |it| it.has_parts(|parts| parts.are_equal)),
    ("its first part alone holds at a node", |it| it.has_parts(|parts| parts.first & !parts.second != 0)),
    ("its second part alone holds at a node", |it| it.has_parts(|parts| parts.second & !parts.first != 0)),
    ("both parts hold at a node", |it| {
        it.has_parts(|parts| parts.first & parts.second != 0 && !parts.are_equal)
    }),
    ("no part holds at a node", |it| it.has_parts(|parts| parts.neither() != 0)),
    ("one part holds nowhere, the other somewhere", |it| {
        it.has_parts(|parts| (parts.first == 0) != (parts.second == 0))
    }),
    ("each node has a part, and no part holds at each", |it| {
        it.has_parts(|parts| parts.neither() == 0 && ![parts.first, parts.second].contains(&parts.all))
    }),
    ("met at a node with one part alone, the root either", |it| {
        it.root_is_either() && it.has_parts(|parts| parts.is_root && parts.first != parts.second)
    }),
    ("not reached by the root", |it| it.is_unreached()),
    ("reached by the root of a pattern with a closed tableau, unmet", |it| {
        it.finding == Finding::Unmet && it.input.never == Some(Never::Met) && !it.parts.is_empty()
    }),
];

pub const RULES: [Limit; 26] = [
    ("rules 24 and 25, closed", |it| it.closed() && it.uses(HAS) && it.uses(LACKS)),
    ("rule 24 without rule 25, closed", |it| it.closed() && it.uses(HAS) && !it.uses(LACKS)),
    ("rule 25 without rule 24, closed", |it| it.closed() && it.uses(LACKS) && !it.uses(HAS)),
    ("rule 24 without another fork, closed", |it| it.closed() && it.uses(HAS) && !it.forks_otherwise()),
    ("rule 24 of two equal parts, closed", |it| it.takes_apart(HAS, |parts| parts[0] == parts[1])),
    ("rule 25 of two equal parts, closed", |it| it.takes_apart(LACKS, |parts| parts[0] == parts[1])),
    ("the rule behind 25 refused 19", |it| it.step_refused(19).is_some_and(|step| step[0] == LAST_RULE + 1)),
    ("rule 24 with Q refused 20", |it| it.unused_field(HAS, |step| step[3..5] != [0, 0] && step[5] == 0)),
    ("rule 25 with Q refused 20", |it| it.unused_field(LACKS, |step| step[3..5] != [0, 0] && step[5] == 0)),
    ("rule 24 with an argument refused 20", |it| {
        it.unused_field(HAS, |step| step[3..5] == [0, 0] && step[5] != 0)
    }),
    ("rule 25 with an argument refused 20", |it| {
        it.unused_field(LACKS, |step| step[3..5] == [0, 0] && step[5] != 0)
    }),
    ("rule 24 of lacking either refused 21", |it| it.unfit(HAS, |holds, entry| !holds && is_either(entry))),
    ("rule 25 of having either refused 21", |it| it.unfit(LACKS, |holds, entry| holds && is_either(entry))),
    ("rule 24 of having both refused 21", |it| it.unfit(HAS, |holds, entry| holds && is_both(entry))),
    ("rule 25 of lacking both refused 21", |it| it.unfit(LACKS, |holds, entry| !holds && is_both(entry))),
    ("rule 2 of having either refused 21", |it| it.unfit(2, |holds, entry| holds && is_either(entry))),
    ("rule 3 of lacking either refused 21", |it| it.unfit(3, |holds, entry| !holds && is_either(entry))),
    ("rule 24 with room for no line refused 23", |it| it.over_lines(HAS, 1024)),
    ("rule 25 with room for no line refused 23", |it| it.over_lines(LACKS, 1024)),
    ("rule 25 with room for one line refused 23", |it| it.over_lines(LACKS, 1023)),
    ("rule 25 that fills the lines, closed", |it| {
        let fills =
            |(place, step): (usize, &[u8])| step[0] == LACKS && branch_before(it.input, place).len() == 1022;
        matches!(it.finding, Finding::Closed { most: 1024, .. }) && it.steps().enumerate().any(fills)
    }),
    ("rule 24 over the lines with 64 right sides waiting refused 23", |it| {
        it.over_lines(HAS, 1024) && it.place(23).is_some_and(|place| it.waiting_before(place) == 64)
    }),
    ("65th right side by rule 24 refused 24", |it| it.step_refused(24).is_some_and(|step| step[0] == HAS)),
    ("64 right sides of rule 24 waiting, closed", |it| {
        it.closed() && it.most_waiting() == 64 && !it.forks_otherwise()
    }),
    ("rule 24 of a pattern with a model that meets it, not closed", |it| it.of_met(HAS)),
    ("rule 25 of a pattern with a model that meets it, not closed", |it| it.of_met(LACKS)),
];

/// Whether an entry of a pattern file is a path.
pub(super) fn is_path(entry: &[u8; 4]) -> bool {
    (8..=11).contains(&entry[0])
}

fn is_path_at(all: &[[u8; 4]], own: usize, part: usize) -> bool {
    part < own && is_path(&all[part])
}

fn is_later_node(all: &[[u8; 4]], own: usize, part: usize) -> bool {
    part > own && all.get(part).is_some_and(|entry| matches!(entry[0], 1..=7 | KIND))
}

fn is_either(entry: &Entry) -> bool {
    matches!(entry, Entry::Either(..))
}

fn is_both(entry: &Entry) -> bool {
    matches!(entry, Entry::Both(..))
}

/// Where the parts of an either that the root reaches hold in a model that is judged.
pub struct Parts {
    first: NodeSet,
    second: NodeSet,
    /// All nodes.
    all: NodeSet,
    are_equal: bool,
    is_root: bool,
}

impl Parts {
    /// The parts of each either that the root reaches, in the model of the input, of which this is kept.
    pub fn of(input: &Input, kept: &Kept) -> Vec<Parts> {
        let pattern = kept.pattern();
        let root = pattern.entries.len() - 1;
        let eithers: Vec<(usize, [usize; 2])> = reached(pattern).filter_map(parts_of).collect();
        if eithers.is_empty() {
            return Vec::new();
        }
        let model = model::parse(&input.proposal).expect("it was judged");
        let (sets, all) = (node_sets(pattern, &model), NodeSet::MAX >> (64 - model.nodes.len()));
        let parts = eithers.into_iter().map(|(number, [phi, psi])| Parts {
            first: sets[phi],
            second: sets[psi],
            all,
            are_equal: phi == psi,
            is_root: number == root,
        });
        parts.collect()
    }

    /// The nodes at which no part holds.
    fn neither(&self) -> NodeSet {
        self.all & !(self.first | self.second)
    }
}

/// The entries that the root reaches, with their numbers.
fn reached(pattern: &Pattern) -> impl Iterator<Item = (usize, &Entry)> {
    let entries = pattern.entries.iter().enumerate().zip(pattern.reached());
    entries.filter(|(_, reached)| *reached).map(|(entry, _)| entry)
}

/// The parts of an entry, if it is either.
fn parts_of((number, entry): (usize, &Entry)) -> Option<(usize, [usize; 2])> {
    match *entry {
        Entry::Either(phi, psi) => Some((number, [phi, psi])),
        _ => None,
    }
}

impl Judged<'_> {
    /// Whether a pattern was read with such an either, by its number and all entries.
    fn read_of(&self, is_such: fn([u8; 4], usize, &[[u8; 4]]) -> bool) -> bool {
        let all = self.entries();
        matches!(self.finding, Finding::Read { .. })
            && all.iter().enumerate().any(|(number, entry)| entry[0] == KIND && is_such(*entry, number, all))
    }

    /// The parts of the either that was refused with this number, and its own.
    fn either_refused(&self, number: u16) -> Option<([usize; 2], usize)> {
        let place = self.place(number)?;
        let [kind, x, y, _] = self.entries()[place];
        (kind == KIND).then_some(([x, y].map(usize::from), place))
    }

    /// Whether an either was refused 6 for its first part (0) or its second (1), which is such by all entries and the
    /// number of the either, while the other is an earlier node.
    fn refused_for(&self, at: usize, is_such: fn(&[[u8; 4]], usize, usize) -> bool) -> bool {
        let all = self.entries();
        self.either_refused(6).is_some_and(|(parts, own)| {
            let other = parts[1 - at];
            other < own && !is_path(&all[other]) && is_such(all, own, parts[at])
        })
    }

    /// Whether an entry that goes on by either, as if it were a path, was refused 6.
    fn refused_as_path(&self) -> bool {
        let all = self.entries();
        self.place(6).is_some_and(|place| {
            let goes_on_by = match all[place] {
                [8..=10, _, y, _] => [y, y],
                [11, x, y, _] => [x, y],
                [6 | 7, _, y, z] => [y, z],
                _ => return false,
            };
            goes_on_by
                .iter()
                .all(|&path| all[..place].get(path as usize).is_some_and(|entry| entry[0] == KIND))
        })
    }

    /// The pattern of a model that was judged.
    fn pattern_judged(&self) -> Option<&Pattern> {
        self.paths.as_ref().map(Kept::pattern)
    }

    fn root_is_either(&self) -> bool {
        self.pattern_judged().is_some_and(|pattern| pattern.entries.last().is_some_and(is_either))
    }

    /// Whether a model was judged in which such an entry that the root reaches has either as a part.
    fn is_part_of(&self, is_such: fn(&Entry) -> bool) -> bool {
        self.pattern_judged().is_some_and(|pattern| {
            let mut such = reached(pattern).filter(|(_, entry)| is_such(entry));
            such.any(|(_, entry)| entry.references().any(|part| is_either(&pattern.entries[part])))
        })
    }

    /// Whether a model was judged in which the parts of an either that the root reaches hold so.
    fn has_parts(&self, is_such: fn(&Parts) -> bool) -> bool {
        self.parts.iter().any(is_such)
    }

    /// Whether a model was judged of a pattern with an either that the root doesn't reach.
    fn is_unreached(&self) -> bool {
        self.pattern_judged().is_some_and(|pattern| {
            let mut entries = pattern.entries.iter().zip(pattern.reached());
            entries.any(|(entry, reached)| is_either(entry) && !reached)
        })
    }

    /// Whether a step of the tableau has the rule.
    fn uses(&self, rule: u8) -> bool {
        self.steps().any(|step| step[0] == rule)
    }

    /// Whether a step of the tableau forks its branch by another rule than 24.
    fn forks_otherwise(&self) -> bool {
        self.steps().any(|step| says_fork(step[0]) && step[0] != HAS)
    }

    /// Whether a closed tableau takes an either of such parts apart by the rule.
    fn takes_apart(&self, rule: u8, is_such: fn([usize; 2]) -> bool) -> bool {
        if !self.closed() || !self.uses(rule) {
            return false;
        }
        let pattern = pattern::parse(&self.input.pattern).expect("it was read");
        let tableau = tableau::parse(&pattern, &self.input.proposal).expect("it is closed");
        let mut walk = Walk::begin(&pattern, tableau.start);
        tableau.steps.iter().any(|step| {
            let line = walk.branch()[step.p as usize];
            walk.take(step).expect("it is closed");
            let Line::Has { entry, .. } = line else { return false };
            let parts = parts_of((entry, &pattern.entries[entry]));
            step.rule == rule && parts.is_some_and(|(_, parts)| is_such(parts))
        })
    }

    /// Whether a step of the rule was refused 20, of which such fields aren't zero.
    fn unused_field(&self, rule: u8, is_such: fn(&[u8]) -> bool) -> bool {
        self.step_refused(20).is_some_and(|step| step[0] == rule && is_such(step))
    }

    /// Whether a step of the rule was refused 23 on a branch of so many lines.
    fn over_lines(&self, rule: u8, lines: usize) -> bool {
        let place =
            self.place(23).filter(|&place| self.steps().nth(place).is_some_and(|step| step[0] == rule));
        place.is_some_and(|place| branch_before(self.input, place).len() == lines)
    }

    /// How many right sides wait before a step that was walked to.
    fn waiting_before(&self, place: usize) -> usize {
        let count =
            |is_such: fn(u8) -> bool| self.steps().take(place).filter(|step| is_such(step[0])).count();
        count(says_fork) - count(says_clash)
    }

    /// Whether a step of the rule was taken, of a pattern that has a model which meets it.
    fn of_met(&self, rule: u8) -> bool {
        match (self.input.never, self.finding) {
            (Some(Never::Closed), Finding::Refused(Refusal { number: 19..=26, place })) => {
                self.steps().take(place.into()).any(|step| step[0] == rule)
            }
            _ => false,
        }
    }

    /// Whether a step of the rule was refused 21 on a line that has or lacks such an entry.
    fn unfit(&self, rule: u8, is_such: fn(bool, &Entry) -> bool) -> bool {
        let Some(step) = self.step_refused(21).filter(|step| step[0] == rule) else { return false };
        let place = self.place(21).expect("it was refused");
        let pattern = pattern::parse(&self.input.pattern).expect("it was read");
        match branch_before(self.input, place)[u16::from_le_bytes([step[1], step[2]]) as usize] {
            Line::Has { holds, entry, .. } => is_such(holds, &pattern.entries[entry]),
            _ => false,
        }
    }
}
