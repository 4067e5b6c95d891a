//! What occurred in a run: findings, refusals, rules and kinds of input.

use super::grids::{Cell, GRIDS};
use super::limits::Judged;
use super::names::EACH_NAME;
use super::situations::{SITUATIONS, Situations};
use crate::generate::input::{Input, Kind, Never, Operation};
use oracle::finding::{Finding, Refusal};
use oracle::tableau::rules::LAST_RULE;
use oracle::tableau::{HEADER_BYTES, STEP_BYTES};
use std::collections::{BTreeMap, BTreeSet, HashSet};
use std::hash::{DefaultHasher, Hash, Hasher};

/// The largest rule number.
const RULES: usize = LAST_RULE as usize;

/// How many lengths of short files are counted: 0 to 10 bytes.
const SHORT: usize = 11;

/// How often a refusal occurred, and the largest place that it gave.
#[derive(Clone, Copy, Debug, Default, PartialEq, Eq)]
pub struct Refused {
    pub times: u64,
    pub deepest: u16,
}

impl Refused {
    fn add(&mut self, other: Refused) {
        self.times += other.times;
        self.deepest = self.deepest.max(other.deepest);
    }
}

/// How often a rule occurred: closed tableaux that use it, and steps with it that were refused 20, 21
/// and 22.
#[derive(Clone, Copy, Debug, Default, PartialEq, Eq)]
pub struct RuleUse {
    pub closed: u64,
    pub refused: [u64; 3],
}

/// Counts of what occurred.
#[derive(Clone, Debug, Default, PartialEq, Eq)]
pub struct Tally {
    pub inputs: u64,
    pub kinds: [u64; Kind::ALL.len()],
    pub read: u64,
    pub met: u64,
    pub unmet: u64,
    pub closed: u64,
    pub written: u64,
    pub area: u64,
    /// The bytes of working area that were wanted.
    pub areas: BTreeSet<usize>,
    /// Refusals by operation and number; none for one that never occurred.
    pub refused: [BTreeMap<usize, Refused>; Operation::ALL.len()],
    pub rules: [RuleUse; RULES + 1],
    /// Inputs that show a limit or another situation, by its sort and words; none for what no input shows.
    pub shown: BTreeMap<(&'static str, &'static str), u64>,
    /// The names that showed what each must show.
    pub names: [BTreeSet<usize>; EACH_NAME.len()],
    /// Inputs that show a cell of a grid.
    pub grids: [BTreeMap<Cell, u64>; GRIDS.len()],
    /// Files of 0 to 10 bytes, by operation: patterns for reading and for asking how long an area is wanted, texts for
    /// typing, else models or tableaux.
    pub short: [[u64; SHORT]; Operation::ALL.len()],
    /// Models judged unmet of a pattern with a closed tableau.
    pub unmet_as_closed: u64,
    /// Tableaux refused in a step or at the end, of a pattern with a model that meets it.
    pub open_as_met: u64,
    /// Hashes of the closed tableaux with their patterns.
    pub distinct: HashSet<u64>,
}

impl Tally {
    /// Counts an input with the finding that the implementations agree on.
    pub fn count(&mut self, input: &Input, finding: Finding) {
        self.inputs += 1;
        self.kinds[input.kind as usize] += 1;
        self.count_shown(&Judged::new(input, finding));
        if Operation::OF_PATTERNS.contains(&input.operation) {
            self.count_short(Operation::Reading, &input.pattern);
        }
        if input.operation != Operation::Reading {
            self.count_short(input.operation, input.file());
        }
        match finding {
            Finding::Read { .. } => self.read += 1,
            Finding::Met { .. } => self.met += 1,
            Finding::Unmet => self.unmet += 1,
            Finding::Closed { .. } => self.count_closed(input),
            Finding::Written { .. } => self.written += 1,
            Finding::Area { bytes } => {
                self.area += 1;
                self.areas.insert(bytes);
            }
            Finding::Refused(refusal) => self.count_refused(input, refusal),
        }
        match (input.never, finding) {
            (Some(Never::Met), Finding::Unmet) => self.unmet_as_closed += 1,
            (Some(Never::Closed), Finding::Refused(refusal)) if refusal.number >= 19 => self.open_as_met += 1,
            _ => {}
        }
    }

    /// Counts what the input shows: situations, names, and cells of the grids.
    fn count_shown(&mut self, judged: &Judged) {
        let tables = SITUATIONS.iter().filter(|table| table.of.contains(&judged.input.operation));
        for &Situations { sort, shown, .. } in tables {
            for (words, _) in shown.iter().filter(|(_, shows)| shows(judged)) {
                *self.shown.entry((sort, words)).or_default() += 1;
            }
        }
        for (names, (_, shown_of)) in self.names.iter_mut().zip(EACH_NAME) {
            names.extend(shown_of(judged));
        }
        for (counts, grid) in self.grids.iter_mut().zip(GRIDS) {
            for cell in (grid.shown)(judged) {
                *counts.entry(cell).or_default() += 1;
            }
        }
    }

    /// Counts a file of the operation if it is short.
    fn count_short(&mut self, operation: Operation, file: &[u8]) {
        if let Some(times) = self.short[operation as usize].get_mut(file.len()) {
            *times += 1;
        }
    }

    fn count_refused(&mut self, input: &Input, refusal: Refusal) {
        let refused = self.refused[input.operation as usize].entry(refusal.number.into()).or_default();
        refused.times += 1;
        refused.deepest = refused.deepest.max(refusal.place);
        if let 20..=22 = refusal.number {
            let rule = input.proposal[HEADER_BYTES + STEP_BYTES * refusal.place as usize];
            self.rules[rule as usize].refused[refusal.number as usize - 20] += 1;
        }
    }

    fn count_closed(&mut self, input: &Input) {
        self.closed += 1;
        let mut used = [false; RULES + 1];
        for step in input.proposal[HEADER_BYTES..].chunks_exact(STEP_BYTES) {
            used[step[0] as usize] = true;
        }
        for (rule, used) in self.rules.iter_mut().zip(used) {
            rule.closed += u64::from(used);
        }
        let mut hasher = DefaultHasher::new();
        (&input.pattern, &input.proposal).hash(&mut hasher);
        self.distinct.insert(hasher.finish());
    }

    /// Adds the counts of another tally.
    pub fn add(&mut self, other: &Tally) {
        let pairs = self.kinds.iter_mut().zip(other.kinds);
        let short = self.short.iter_mut().flatten().zip(other.short.into_iter().flatten());
        let pairs = pairs.chain(short).chain([
            (&mut self.inputs, other.inputs),
            (&mut self.read, other.read),
            (&mut self.met, other.met),
            (&mut self.unmet, other.unmet),
            (&mut self.closed, other.closed),
            (&mut self.written, other.written),
            (&mut self.area, other.area),
            (&mut self.unmet_as_closed, other.unmet_as_closed),
            (&mut self.open_as_met, other.open_as_met),
        ]);
        for (count, more) in pairs {
            *count += more;
        }
        for (mine, theirs) in self.rules.iter_mut().zip(&other.rules) {
            mine.closed += theirs.closed;
            for (mine, theirs) in mine.refused.iter_mut().zip(theirs.refused) {
                *mine += theirs;
            }
        }
        for (mine, theirs) in self.refused.iter_mut().zip(&other.refused) {
            for (number, refused) in theirs {
                mine.entry(*number).or_default().add(*refused);
            }
        }
        self.add_shown(other);
        self.areas.extend(&other.areas);
        self.distinct.extend(&other.distinct);
    }

    /// Adds what the inputs of another tally show.
    fn add_shown(&mut self, other: &Tally) {
        for (situation, times) in &other.shown {
            *self.shown.entry(*situation).or_default() += times;
        }
        for (mine, theirs) in self.grids.iter_mut().zip(&other.grids) {
            theirs.iter().for_each(|(cell, times)| *mine.entry(*cell).or_default() += times);
        }
        for (mine, theirs) in self.names.iter_mut().zip(&other.names) {
            mine.extend(theirs);
        }
    }

    /// What occurred of a refusal of the operation.
    pub fn refused(&self, operation: Operation, number: usize) -> Refused {
        self.refused[operation as usize].get(&number).copied().unwrap_or_default()
    }

    /// How many inputs show the situation of this sort.
    pub fn showing(&self, sort: &str, words: &str) -> u64 {
        self.shown.get(&(sort, words)).copied().unwrap_or_default()
    }
}
