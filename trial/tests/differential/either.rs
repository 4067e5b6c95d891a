//! Planted faults about either, its entries and its rules.

use super::faults::either::{self, CONCLUSIONS, COUNTS, ENTRIES, MEANINGS, PREMISES, STEPS};
use super::faults::either::{counted, stepped, taken};
use super::faults::model::misread;
use super::faults::tableau::{Fault, NONE};
use super::{is_right, is_seen_among};

#[test]
fn entries_taken_for_others_are_seen() {
    for (words, take) in ENTRIES {
        is_seen_among(words, &|operation, lent| taken(take, operation, lent));
    }
}

#[test]
fn mistakes_about_where_it_holds_are_seen() {
    for (words, change) in MEANINGS {
        is_seen_among(words, &|operation, lent| misread(change, operation, lent));
    }
}

#[test]
fn other_conclusions_of_its_rules_are_seen() {
    for (words, alters) in CONCLUSIONS {
        is_seen_among(words, &|operation, lent| Fault { alters, ..NONE }.run(operation, lent));
    }
}

#[test]
fn lines_that_its_rules_do_not_fit_are_seen() {
    for (words, accepts) in PREMISES {
        is_seen_among(words, &|operation, lent| Fault { accepts, ..NONE }.run(operation, lent));
    }
}

#[test]
fn steps_taken_for_others_are_seen() {
    for (words, take) in STEPS {
        is_seen_among(words, &|operation, lent| stepped(take, operation, lent));
    }
}

#[test]
fn mistakes_in_counting_its_rules_are_seen() {
    for (words, count) in COUNTS {
        is_seen_among(words, &|operation, lent| counted(count, operation, lent));
    }
}

#[test]
fn the_planted_judges_are_right_without_a_fault() {
    is_right(&|operation, lent| misread(either::right, operation, lent));
    is_right(&|operation, lent| taken(|_| (), operation, lent));
    is_right(&|operation, lent| stepped(|_| (), operation, lent));
}
