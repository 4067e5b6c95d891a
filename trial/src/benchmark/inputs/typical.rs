//! A typical tableau: 20 entries, 60 steps, most of the rules.
//!
//! The pattern says that one of three impossible things holds: two steps have equal ends and haven't the
//! other way round; something with a property comes after and doesn't; a path to a named node and its fork
//! with the end differ. Each gets its part of the tableau, the first two twice.

use super::patterns::Entries;
use super::script::Script;
use oracle::pattern::{Comparison, Entry, Pattern};
use oracle::tableau::Tableau;

const START: u8 = 0;
const NAMED: u8 = 1;
/// Names that become fresh again on each branch.
const NEXT: u8 = 2;
const OTHER: u8 = 3;
const CHANNEL: u8 = 1;

pub fn pattern() -> Pattern {
    let mut entries = Entries::default();
    let first = Some(entries.add(Entry::Step(0, None)));
    let second = Some(entries.add(Entry::Step(1, None)));
    let one_way = entries.add(Entry::Compare(Comparison::Same, 0, first, second));
    let other_way = entries.add(Entry::Compare(Comparison::Same, 0, second, first));
    let not_other_way = entries.add(Entry::Not(other_way));
    let lopsided = entries.add(Entry::Both(one_way, not_other_way));
    let not_lopsided = entries.add(Entry::Not(lopsided));
    let property = entries.add(Entry::Property(0));
    let after = entries.add(Entry::After(0, property));
    let never_after = entries.add(Entry::Not(after));
    let broken = entries.add(Entry::Both(after, never_after));
    let not_broken = entries.add(Entry::Not(broken));
    let named = entries.add(Entry::Name(NAMED));
    let test = Some(entries.add(Entry::Test(named, None)));
    let fork = Some(entries.add(Entry::Fork(test, None)));
    let unlike = entries.add(Entry::Compare(Comparison::Differ, CHANNEL, test, fork));
    let not_unlike = entries.add(Entry::Not(unlike));
    let neither = entries.add(Entry::Both(not_lopsided, not_broken));
    let none = entries.add(Entry::Both(neither, not_unlike));
    entries.add(Entry::Not(none));
    entries.pattern()
}

pub fn tableau(pattern: &Pattern) -> Tableau {
    let mut script = Script::new(pattern, START);
    let none = script.use_line(1, 0);
    for _ in 0..2 {
        let neither = script.use_line(3, none);
        script.use_line(3, neither);
        lopsided(&mut script);
        broken(&mut script);
    }
    unlike(&mut script);
    script.tableau()
}

/// Closes a branch whose last line lacks `not_lopsided`.
fn lopsided(script: &mut Script) {
    let lopsided = script.use_line(1, script.last());
    let one_way = script.use_line(2, lopsided);
    let other_way = script.use_line(1, one_way + 1);
    let held = script.use_line(7, one_way);
    let first_edge = script.step(14, held, 0, NEXT);
    let exchanged = script.use_line(8, first_edge + 1);
    let second_edge = script.step(14, exchanged, 0, OTHER);
    let barred = script.use_line(7, other_way);
    let barred = script.step(15, barred, second_edge, 0);
    let barred = script.use_line(8, barred);
    let barred = script.step(15, barred, first_edge, 0);
    let barred = script.use_line(8, barred);
    let differ = script.use_line(16, barred);
    script.step(22, second_edge + 1, differ, 0);
}

/// Closes a branch whose last line lacks `not_broken`.
fn broken(script: &mut Script) {
    let broken = script.use_line(1, script.last());
    let after = script.use_line(2, broken);
    let never_after = script.use_line(1, after + 1);
    let edge = script.step(5, after, 0, NEXT);
    let lacks = script.step(6, never_after, edge, 0);
    script.step(21, edge + 1, lacks, 0);
}

/// Closes a branch whose last line lacks `not_unlike`.
fn unlike(script: &mut Script) {
    let unlike = script.use_line(1, script.last());
    let differ = script.use_line(7, unlike);
    let named = script.use_line(10, differ);
    let is = script.use_line(4, named);
    let back = script.use_line(17, is);
    let there_same = script.step(18, is, 0, CHANNEL);
    let back_same = script.step(18, back, 0, CHANNEL);
    let exchanged = script.use_line(8, named + 1);
    let tested = script.use_line(12, exchanged);
    let differ = script.use_line(10, tested) + 1;
    let replaced = script.step(19, is, differ, 0);
    let differ = script.step(20, there_same, replaced, 0);
    let same = script.step(20, there_same, back_same, 0);
    script.step(22, same, differ, 0);
    script.use_line(23, script.last());
}
