//! A judge that is right but for what it takes either for: its entries in a pattern file, where it holds in a model,
//! its rules in a tableau.

use super::model::Misreading;
use super::tableau::{Accepts, Alters, concluded, premises};
use oracle::finding::Finding;
use oracle::model::{Model, NodeSet, node_sets};
use oracle::pattern::{Entry, Pattern};
use oracle::tableau::line::Line;
use oracle::tableau::rules::Conclusion::{self, Fork, One, Two};
use oracle::tableau::rules::Step;
use oracle::tableau::{HEADER_BYTES, STEP_BYTES};
use std::iter::zip;
use trial::differential::implementation::{Lent, run_oracle};
use trial::generate::input::Operation;

/// The kind of either, and its rules for a name that has it and for one that lacks it.
const KIND: u8 = 12;
const HAS: u8 = 24;
const LACKS: u8 = 25;

/// What it takes a record of a file for, an entry or a step, with the words for it.
type Taken<const BYTES: usize> = (&'static str, fn(&mut [u8; BYTES]));

/// What it takes an entry of a pattern file for.
pub const ENTRIES: [Taken<4>; 9] = [
    ("no kind", |entry| change(entry, |[_, x, y, z]| [0, x, y, z])),
    ("both", |entry| change(entry, |[_, x, y, z]| [4, x, y, z])),
    ("not", |entry| change(entry, |[_, x, _, z]| [3, x, 0, z])),
    ("a test, a path", |entry| change(entry, |[_, x, _, z]| [10, x, 255, z])),
    ("a fork of paths", |entry| change(entry, |[_, x, y, z]| [11, x, y, z])),
    ("z isn't looked at", |entry| change(entry, |[kind, x, y, _]| [kind, x, y, 0])),
    ("y isn't looked at", |entry| change(entry, |[kind, x, _, z]| [kind, x, x, z])),
    ("x isn't looked at", |entry| change(entry, |[kind, _, y, z]| [kind, y, y, z])),
    ("a kind more", |entry| {
        if entry[0] == KIND + 1 {
            entry[0] = KIND;
        }
    }),
];

/// Changes an entry of either.
fn change(entry: &mut [u8; 4], changed: fn([u8; 4]) -> [u8; 4]) {
    if entry[0] == KIND {
        *entry = changed(*entry);
    }
}

/// The judge that takes entries for others, as an implementation.
pub fn taken(
    take: fn(&mut [u8; 4]),
    operation: Operation,
    Lent { pattern, proposal, area }: Lent,
) -> Finding {
    let mut pattern = pattern.to_vec();
    if let Some(entries) = pattern.get_mut(6..) {
        entries.as_chunks_mut().0.iter_mut().for_each(take);
    }
    run_oracle(operation, Lent { pattern: &mut pattern, proposal, area })
}

/// Where either holds.
pub fn right(pattern: &mut Pattern, model: &mut Model) {
    holding(pattern, model, |first, second| first | second);
}

/// Where it takes either to hold, by where its parts do.
pub const MEANINGS: [Misreading; 8] = [
    ("where both parts hold", |pattern, model| holding(pattern, model, |first, second| first & second)),
    ("where its first part holds", |pattern, model| holding(pattern, model, |first, _| first)),
    ("where its second part holds", |pattern, model| holding(pattern, model, |_, second| second)),
    ("where one part alone holds", |pattern, model| holding(pattern, model, |first, second| first ^ second)),
    ("where no part holds", |pattern, model| holding(pattern, model, |first, second| !(first | second))),
    ("everywhere", |pattern, model| holding(pattern, model, |_, _| NodeSet::MAX)),
    ("nowhere", |pattern, model| holding(pattern, model, |_, _| 0)),
    ("where a part holds that the root reaches by other ways", unreached),
];

/// The properties that the pattern doesn't have.
fn free_properties(pattern: &Pattern) -> Vec<u8> {
    (0..32).filter(|&property| !pattern.entries.contains(&Entry::Property(property))).collect()
}

/// Makes each node entry that the root reaches by either alone a property that the pattern and the nodes don't have.
fn unreached(pattern: &mut Pattern, model: &mut Model) {
    let Some(&property) = free_properties(pattern).first() else { return };
    model.nodes.iter_mut().for_each(|node| node.properties &= !(1 << property));
    let mut without = pattern.clone();
    let eithers = without.entries.iter_mut().filter(|entry| matches!(entry, Entry::Either(..)));
    eithers.for_each(|entry| *entry = Entry::Property(property));
    for (entry, reached) in zip(&mut pattern.entries, without.reached()) {
        if !reached && !entry.is_path() {
            *entry = Entry::Property(property);
        }
    }
}

/// Makes each either a property that the pattern doesn't have and these nodes do, as long as there are properties left.
fn holding(pattern: &mut Pattern, model: &mut Model, nodes: fn(NodeSet, NodeSet) -> NodeSet) {
    let right = pattern.clone();
    let eithers = right.entries.iter().enumerate().filter_map(|(number, entry)| match *entry {
        Entry::Either(phi, psi) => Some((number, phi, psi)),
        _ => None,
    });
    for ((number, phi, psi), property) in zip(eithers, free_properties(&right)) {
        let sets = node_sets(pattern, model);
        let set = nodes(sets[phi], sets[psi]);
        for (node, record) in model.nodes.iter_mut().enumerate() {
            record.properties &= !(1 << property);
            record.properties |= ((set >> node & 1) as u32) << property;
        }
        pattern.entries[number] = Entry::Property(property);
    }
}

/// What it makes of the conclusion of rule 24 or 25.
pub const CONCLUSIONS: [(&str, Alters); 11] = [
    ("rule 24 with its left side only", |rule, it| made(HAS, rule, it, |left, _| One(left))),
    ("rule 24 with its right side only", |rule, it| made(HAS, rule, it, |_, right| One(right))),
    ("rule 24 with its sides exchanged", |rule, it| made(HAS, rule, it, |left, right| Fork(right, left))),
    ("rule 24 with its left side twice", |rule, it| made(HAS, rule, it, |left, _| Fork(left, left))),
    ("rule 24 without a fork", |rule, it| made(HAS, rule, it, Two)),
    ("rule 24 that gives lacks", |rule, it| {
        made(HAS, rule, it, |left, right| Fork(turned(left), turned(right)))
    }),
    ("rule 25 as a fork", |rule, it| made(LACKS, rule, it, Fork)),
    ("rule 25 with its lines exchanged", |rule, it| {
        made(LACKS, rule, it, |first, second| Two(second, first))
    }),
    ("rule 25 with its first line only", |rule, it| made(LACKS, rule, it, |first, _| One(first))),
    ("rule 25 with its second line only", |rule, it| made(LACKS, rule, it, |_, second| One(second))),
    ("rule 25 that gives has", |rule, it| {
        made(LACKS, rule, it, |first, second| Two(turned(first), turned(second)))
    }),
];

/// What is made of the two lines of a conclusion, if it is one of the rule.
fn made(of: u8, rule: u8, conclusion: Conclusion, made: fn(Line, Line) -> Conclusion) -> Conclusion {
    match conclusion {
        Fork(one, other) | Two(one, other) if rule == of => made(one, other),
        _ => conclusion,
    }
}

/// A line of has as one of lacks, and the other way round.
fn turned(line: Line) -> Line {
    match line {
        Line::Has { holds, name, entry } => Line::Has { holds: !holds, name, entry },
        _ => line,
    }
}

/// What it concludes of lines that a rule doesn't fit.
pub const PREMISES: [(&str, Accepts); 6] = [
    ("rule 24 of lacking either", |pattern, branch, step| of_other_sign(HAS, pattern, branch, step)),
    ("rule 25 of having either", |pattern, branch, step| of_other_sign(LACKS, pattern, branch, step)),
    ("rule 24 of having both", |pattern, branch, step| of_other_kind([HAS, 2], pattern, branch, step)),
    ("rule 25 of lacking both", |pattern, branch, step| of_other_kind([LACKS, 3], pattern, branch, step)),
    ("rule 2 of having either", |pattern, branch, step| of_other_kind([2, HAS], pattern, branch, step)),
    ("rule 3 of lacking either", |pattern, branch, step| of_other_kind([3, LACKS], pattern, branch, step)),
];

/// The conclusion of the rule if P had the other sign.
fn of_other_sign(rule: u8, pattern: &Pattern, branch: &[Line], step: &Step) -> Option<Conclusion> {
    let (p, q) = premises(branch, step)?;
    if step.rule != rule { None } else { concluded(pattern, turned(p), q, step) }
}

/// The conclusion of a rule on a line that another one fits: its lines, by a fork if the other doesn't fork.
fn of_other_kind(
    [rule, other]: [u8; 2],
    pattern: &Pattern,
    branch: &[Line],
    step: &Step,
) -> Option<Conclusion> {
    let (p, q) = premises(branch, step).filter(|_| step.rule == rule)?;
    match concluded(pattern, p, q, &Step { rule: other, ..*step })? {
        Fork(one, other) => Some(Two(one, other)),
        Two(one, other) => Some(Fork(one, other)),
        _ => None,
    }
}

/// What it takes a step of a tableau file for.
pub const STEPS: [Taken<STEP_BYTES>; 7] = [
    ("rule 24 unknown", |step| change_step(step, HAS, |step| step[0] = 0)),
    ("rule 25 unknown", |step| change_step(step, LACKS, |step| step[0] = 0)),
    ("a rule more", |step| change_step(step, LACKS + 1, |step| step[0] = LACKS)),
    ("Q of rule 24 isn't looked at", |step| change_step(step, HAS, |step| step[3..5].fill(0))),
    ("Q of rule 25 isn't looked at", |step| change_step(step, LACKS, |step| step[3..5].fill(0))),
    ("the argument of rule 24 isn't looked at", |step| change_step(step, HAS, |step| step[5] = 0)),
    ("the argument of rule 25 isn't looked at", |step| change_step(step, LACKS, |step| step[5] = 0)),
];

fn change_step(step: &mut [u8; 6], rule: u8, change: fn(&mut [u8; 6])) {
    if step[0] == rule {
        change(step);
    }
}

/// The judge that takes steps for others, as an implementation.
pub fn stepped(
    take: fn(&mut [u8; 6]),
    operation: Operation,
    Lent { pattern, proposal, area }: Lent,
) -> Finding {
    let mut proposal = proposal.to_vec();
    if let (Operation::Tableau, Some(steps)) = (operation, proposal.get_mut(HEADER_BYTES..)) {
        steps.as_chunks_mut().0.iter_mut().for_each(take);
    }
    run_oracle(operation, Lent { pattern, proposal: &mut proposal, area })
}

/// Which of the steps of a closed tableau it counts wrongly: the rule, and what it adds to clashes and to forks for
/// each.
pub const COUNTS: [(&str, (u8, [i16; 2])); 4] = [
    ("rule 24 isn't counted as a fork", (HAS, [0, -1])),
    ("rule 25 is counted as a fork", (LACKS, [0, 1])),
    ("rule 24 is counted as a clash", (HAS, [1, 0])),
    ("rule 25 is counted as a clash", (LACKS, [1, 0])),
];

/// The judge that counts so, as an implementation.
pub fn counted((rule, [clash, fork]): (u8, [i16; 2]), operation: Operation, lent: Lent) -> Finding {
    let proposal = lent.proposal.to_vec();
    match run_oracle(operation, lent) {
        Finding::Closed { steps, clashes, forks, most } => {
            let rules = proposal[HEADER_BYTES..].chunks_exact(STEP_BYTES).map(|step| step[0]);
            let times = rules.filter(|of| *of == rule).count() as i16;
            let (clashes, forks) =
                (clashes.wrapping_add_signed(clash * times), forks.wrapping_add_signed(fork * times));
            Finding::Closed { steps, clashes, forks, most }
        }
        finding => finding,
    }
}
