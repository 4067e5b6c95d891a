//! What each rule from 1 to 25 concludes, and which lines and arguments don't fit it.

mod common;

use common::pattern;
use oracle::pattern::Comparison::{self, Differ, Same};
use oracle::pattern::{Path, Pattern, parse};
use oracle::tableau::line::Line;
use oracle::tableau::rules::Conclusion::{self, Clash, Fork, One, Two};
use oracle::tableau::rules::{Step, apply};

const P: usize = 0;
const Q: usize = 1;
const NOT: usize = 2;
const BOTH: usize = 3;
const NAME_9: usize = 4;
const AFTER_2: usize = 5;
const END: Path = None;
const STEP_2: Path = Some(6);
const JUMP_9: Path = Some(7);
const TEST: Path = Some(8);
const FORK: Path = Some(9);
const SAME: usize = 10;
const DIFFER: usize = 11;
const EITHER: usize = 12;

/// One entry of each kind; the constants above are their numbers.
fn every_kind() -> Pattern {
    let entries = [
        [1, 0, 0, 0],
        [1, 1, 0, 0],
        [3, 0, 0, 0],
        [4, 0, 1, 0],
        [2, 9, 0, 0],
        [5, 2, 0, 0],
        [8, 2, 255, 0],
        [9, 9, 6, 0],
        [10, 0, 6, 0],
        [11, 6, 7, 0],
        [6, 3, 6, 7],
        [7, 3, 255, 8],
        [12, 0, 1, 0],
    ];
    parse(&pattern(&entries)).unwrap()
}

fn has(name: u8, entry: usize) -> Line {
    Line::Has { holds: true, name, entry }
}

fn lacks(name: u8, entry: usize) -> Line {
    Line::Has { holds: false, name, entry }
}

fn is(first: u8, second: u8) -> Line {
    Line::Is { holds: true, first, second }
}

fn is_not(first: u8, second: u8) -> Line {
    Line::Is { holds: false, first, second }
}

fn edge(axis: u8, from: u8, to: u8) -> Line {
    Line::Edge { axis, from, to }
}

/// On channel 3.
fn held(left: (u8, Path), comparison: Comparison, right: (u8, Path)) -> Line {
    Line::Compare { holds: true, comparison, channel: 3, left, right }
}

/// On channel 3.
fn barred(left: (u8, Path), comparison: Comparison, right: (u8, Path)) -> Line {
    Line::Compare { holds: false, comparison, channel: 3, left, right }
}

/// The rule on a branch of P, Q and a line that has name 20.
fn applied(rule: u8, p: Line, q: Option<Line>, argument: u8) -> Result<Conclusion, u16> {
    let branch = [p, q.unwrap_or(has(20, P)), has(20, P)];
    apply(&every_kind(), &branch, &Step { rule, p: 0, q: q.is_some() as u16, argument })
}

/// What doesn't fit: refused 21.
const MISFIT: Result<Conclusion, u16> = Err(21);

#[test]
fn rules_of_entries() {
    assert_eq!(applied(1, has(1, NOT), None, 0), Ok(One(lacks(1, P))));
    assert_eq!(applied(1, lacks(1, NOT), None, 0), Ok(One(has(1, P))));
    assert_eq!(applied(1, has(1, BOTH), None, 0), MISFIT);
    assert_eq!(applied(2, has(1, BOTH), None, 0), Ok(Two(has(1, P), has(1, Q))));
    assert_eq!(applied(2, lacks(1, BOTH), None, 0), MISFIT);
    assert_eq!(applied(3, lacks(1, BOTH), None, 0), Ok(Fork(lacks(1, P), lacks(1, Q))));
    assert_eq!(applied(3, has(1, BOTH), None, 0), MISFIT);
    assert_eq!(applied(4, has(1, NAME_9), None, 0), Ok(One(is(1, 9))));
    assert_eq!(applied(4, lacks(1, NAME_9), None, 0), Ok(One(is_not(1, 9))));
    assert_eq!(applied(4, has(1, P), None, 0), MISFIT);
}

#[test]
fn rules_of_either() {
    assert_eq!(applied(24, has(1, EITHER), None, 0), Ok(Fork(has(1, P), has(1, Q))));
    assert_eq!(applied(24, lacks(1, EITHER), None, 0), MISFIT);
    assert_eq!(applied(25, lacks(1, EITHER), None, 0), Ok(Two(lacks(1, P), lacks(1, Q))));
    assert_eq!(applied(25, has(1, EITHER), None, 0), MISFIT);
    for rule in [24, 25] {
        for p in [has(1, BOTH), lacks(1, BOTH), has(1, NOT), held((1, FORK), Same, (1, END)), is(1, 2)] {
            assert_eq!(applied(rule, p, None, 0), MISFIT, "rule {rule}, {p:?}");
        }
    }
    for rule in (1..=7).filter(|&rule| rule != 6) {
        let argument = if rule == 5 { 7 } else { 0 };
        assert_eq!(applied(rule, has(1, EITHER), None, argument), MISFIT, "rule {rule}");
        assert_eq!(applied(rule, lacks(1, EITHER), None, argument), MISFIT, "rule {rule}");
    }
    assert_eq!(applied(21, has(1, EITHER), Some(lacks(1, EITHER)), 0), Ok(Clash), "whole, by its sign");
    assert_eq!(applied(19, is(1, 2), Some(lacks(1, EITHER)), 0), Ok(One(lacks(2, EITHER))));
}

#[test]
fn rules_of_after() {
    assert_eq!(applied(5, has(1, AFTER_2), None, 7), Ok(Two(edge(2, 1, 7), has(7, P))));
    assert_eq!(applied(5, has(1, AFTER_2), None, 128), MISFIT);
    assert_eq!(applied(5, lacks(1, AFTER_2), None, 7), MISFIT);
    for not_fresh in [1, 9, 20] {
        assert_eq!(applied(5, has(1, AFTER_2), None, not_fresh), Err(22), "name {not_fresh}");
    }
    assert_eq!(applied(6, lacks(1, AFTER_2), Some(edge(2, 1, 7)), 0), Ok(One(lacks(7, P))));
    assert_eq!(applied(6, lacks(1, AFTER_2), Some(edge(3, 1, 7)), 0), MISFIT, "another axis");
    assert_eq!(applied(6, lacks(1, AFTER_2), Some(edge(2, 7, 1)), 0), MISFIT, "to i, not from it");
    assert_eq!(applied(6, has(1, AFTER_2), Some(edge(2, 1, 7)), 0), MISFIT);
}

#[test]
fn a_name_on_any_line_is_not_fresh() {
    let others = [
        lacks(30, P),
        is(31, 32),
        is_not(33, 34),
        edge(0, 35, 36),
        held((37, END), Same, (38, TEST)),
        barred((39, FORK), Differ, (40, END)),
    ];
    let branch = [&[has(1, AFTER_2)], &others[..]].concat();
    for argument in 29..=41 {
        let fresh = apply(&every_kind(), &branch, &Step { rule: 5, p: 0, q: 0, argument }).is_ok();
        assert_eq!(fresh, argument == 29 || argument == 41, "name {argument}");
    }
}

#[test]
fn rule_7_makes_a_comparison() {
    let same = held((1, STEP_2), Same, (1, JUMP_9));
    let no_differ = barred((1, END), Differ, (1, TEST));
    assert_eq!(applied(7, has(1, SAME), None, 0), Ok(One(same)));
    assert_eq!(applied(7, lacks(1, DIFFER), None, 0), Ok(One(no_differ)));
    assert_eq!(applied(7, has(1, NOT), None, 0), MISFIT);
    assert_eq!(applied(7, same, None, 0), MISFIT);
}

#[test]
fn rules_of_either_sign() {
    let right = (2, FORK);
    for compare in [held, barred] {
        let p = compare((1, JUMP_9), Differ, right);
        assert_eq!(applied(8, p, None, 0), Ok(One(compare(right, Differ, (1, JUMP_9)))));
        assert_eq!(applied(9, p, None, 0), Ok(One(compare((9, STEP_2), Differ, right))));
        assert_eq!(applied(9, compare(right, Differ, (1, JUMP_9)), None, 0), MISFIT, "the right path");
    }
    assert_eq!(applied(8, is(1, 2), None, 0), MISFIT);
}

#[test]
fn rules_of_the_left_path() {
    let right = (2, END);
    let holds = |name, path| held((name, path), Same, right);
    let bars = |name, path| barred((name, path), Same, right);
    assert_eq!(applied(10, holds(1, TEST), None, 0), Ok(Two(has(1, P), holds(1, STEP_2))));
    assert_eq!(applied(10, bars(1, TEST), None, 0), MISFIT);
    assert_eq!(applied(11, bars(1, TEST), None, 0), Ok(Fork(lacks(1, P), bars(1, STEP_2))));
    assert_eq!(applied(11, holds(1, TEST), None, 0), MISFIT);
    assert_eq!(applied(12, holds(1, FORK), None, 0), Ok(Fork(holds(1, STEP_2), holds(1, JUMP_9))));
    assert_eq!(applied(12, bars(1, FORK), None, 0), MISFIT);
    assert_eq!(applied(13, bars(1, FORK), None, 0), Ok(Two(bars(1, STEP_2), bars(1, JUMP_9))));
    assert_eq!(applied(13, holds(1, FORK), None, 0), MISFIT);
    assert_eq!(applied(10, holds(1, END), None, 0), MISFIT);
}

#[test]
fn rules_of_a_step() {
    let right = (2, FORK);
    let p = held((1, STEP_2), Differ, right);
    assert_eq!(applied(14, p, None, 7), Ok(Two(edge(2, 1, 7), held((7, END), Differ, right))));
    assert_eq!(applied(14, p, None, 200), MISFIT);
    assert_eq!(applied(14, barred((1, STEP_2), Differ, right), None, 7), MISFIT);
    for not_fresh in [1, 2, 9, 20] {
        assert_eq!(applied(14, p, None, not_fresh), Err(22), "name {not_fresh}");
    }
    let p = barred((1, STEP_2), Same, right);
    assert_eq!(applied(15, p, Some(edge(2, 1, 7)), 0), Ok(One(barred((7, END), Same, right))));
    assert_eq!(applied(15, p, Some(edge(0, 1, 7)), 0), MISFIT, "another axis");
    assert_eq!(applied(15, p, Some(edge(2, 2, 7)), 0), MISFIT, "from the right name");
    assert_eq!(applied(15, held((1, STEP_2), Same, right), Some(edge(2, 1, 7)), 0), MISFIT);
}

#[test]
fn rule_16_turns_a_bar_at_the_ends() {
    let ends = ((1, END), (2, END));
    assert_eq!(applied(16, barred(ends.0, Same, ends.1), None, 0), Ok(One(held(ends.0, Differ, ends.1))));
    assert_eq!(applied(16, barred(ends.0, Differ, ends.1), None, 0), Ok(One(held(ends.0, Same, ends.1))));
    assert_eq!(applied(16, held(ends.0, Same, ends.1), None, 0), MISFIT);
    assert_eq!(applied(16, barred((1, END), Same, (2, STEP_2)), None, 0), MISFIT);
    assert_eq!(applied(16, barred((1, STEP_2), Same, (2, END)), None, 0), MISFIT);
}

#[test]
fn rules_17_and_18_start_from_is() {
    assert_eq!(applied(17, is(1, 2), None, 0), Ok(One(is(2, 1))));
    assert_eq!(applied(17, is_not(1, 2), None, 0), MISFIT);
    assert_eq!(applied(18, is(1, 2), None, 3), Ok(One(held((1, END), Same, (2, END)))));
    assert_eq!(applied(18, is(1, 2), None, 4), MISFIT);
    assert_eq!(applied(18, is_not(1, 2), None, 3), MISFIT);
}

#[test]
fn rule_19_replaces_a_name_where_it_stands() {
    let by_is = |q, argument| applied(19, is(1, 2), Some(q), argument);
    assert_eq!(by_is(lacks(1, NAME_9), 0), Ok(One(lacks(2, NAME_9))));
    assert_eq!(by_is(lacks(1, NAME_9), 1), MISFIT);
    assert_eq!(by_is(lacks(2, NAME_9), 0), MISFIT);
    assert_eq!(by_is(is_not(1, 1), 0), Ok(One(is_not(2, 1))));
    assert_eq!(by_is(is_not(1, 1), 1), Ok(One(is_not(1, 2))));
    assert_eq!(by_is(edge(5, 1, 3), 0), Ok(One(edge(5, 2, 3))));
    assert_eq!(by_is(edge(5, 3, 1), 1), Ok(One(edge(5, 3, 2))));
    assert_eq!(by_is(edge(5, 3, 1), 0), MISFIT);
    let q = barred((1, FORK), Same, (1, TEST));
    assert_eq!(by_is(q, 0), Ok(One(barred((2, FORK), Same, (1, TEST)))));
    assert_eq!(by_is(q, 1), Ok(One(barred((1, FORK), Same, (2, TEST)))));
    assert_eq!(by_is(q, 2), MISFIT);
    assert_eq!(applied(19, is_not(1, 2), Some(q), 0), MISFIT);
    assert_eq!(by_is(is(1, 2), 0), Ok(One(is(2, 2))), "Q may be like P");
}

#[test]
fn rule_20_chains_a_same() {
    let same = held((1, END), Same, (2, END));
    let chained = |q| applied(20, same, Some(q), 0);
    assert_eq!(chained(held((2, END), Same, (3, END))), Ok(One(held((1, END), Same, (3, END)))));
    assert_eq!(chained(held((2, END), Differ, (3, END))), Ok(One(held((1, END), Differ, (3, END)))));
    assert_eq!(chained(held((1, END), Same, (2, END))), MISFIT);
    assert_eq!(chained(barred((2, END), Same, (3, END))), MISFIT);
    assert_eq!(chained(held((2, STEP_2), Same, (3, END))), MISFIT);
    assert_eq!(chained(held((2, END), Same, (3, STEP_2))), MISFIT);
    let (left, right) = ((2, END), (3, END));
    let elsewhere = Line::Compare { holds: true, comparison: Same, channel: 2, left, right };
    assert_eq!(chained(elsewhere), MISFIT, "another channel");
    let differ = held((1, END), Differ, (2, END));
    assert_eq!(applied(20, differ, Some(held((2, END), Differ, (3, END))), 0), MISFIT, "two differs");
    let p_with_path = held((1, END), Same, (2, STEP_2));
    assert_eq!(applied(20, p_with_path, Some(held((2, END), Same, (3, END))), 0), MISFIT);
}

#[test]
fn rule_21_wants_opposite_signs() {
    let clash = |p, q| applied(21, p, Some(q), 0);
    assert_eq!(clash(has(1, P), lacks(1, P)), Ok(Clash));
    assert_eq!(clash(lacks(1, P), has(1, P)), Ok(Clash));
    assert_eq!(clash(has(1, P), has(1, P)), MISFIT);
    assert_eq!(clash(has(1, P), lacks(1, Q)), MISFIT);
    assert_eq!(clash(has(1, P), lacks(2, P)), MISFIT);
    assert_eq!(clash(is(1, 2), is_not(1, 2)), Ok(Clash));
    assert_eq!(clash(is(1, 2), is_not(2, 1)), MISFIT);
    assert_eq!(clash(edge(0, 1, 2), edge(0, 1, 2)), MISFIT);
    let (left, right) = ((1, TEST), (2, END));
    assert_eq!(clash(held(left, Same, right), barred(left, Same, right)), Ok(Clash));
    assert_eq!(clash(held(left, Same, right), barred(left, Differ, right)), MISFIT);
    assert_eq!(clash(held(left, Same, right), barred(right, Same, left)), MISFIT);
}

#[test]
fn rules_22_and_23_want_the_ends() {
    let clash = |p, q| applied(22, p, Some(q), 0);
    let (left, right) = ((1, END), (2, END));
    assert_eq!(clash(held(left, Same, right), held(left, Differ, right)), Ok(Clash));
    assert_eq!(clash(held(left, Differ, right), held(left, Same, right)), MISFIT, "P is the same");
    assert_eq!(clash(held(left, Same, right), held(right, Differ, left)), MISFIT);
    assert_eq!(clash(held(left, Same, right), barred(left, Differ, right)), MISFIT);
    let open = (1, STEP_2);
    assert_eq!(clash(held(open, Same, right), held(open, Differ, right)), MISFIT);
    assert_eq!(clash(held(right, Same, open), held(right, Differ, open)), MISFIT);

    assert_eq!(applied(23, is_not(4, 4), None, 0), Ok(Clash));
    assert_eq!(applied(23, is_not(4, 5), None, 0), MISFIT);
    assert_eq!(applied(23, is(4, 4), None, 0), MISFIT);
    assert_eq!(applied(23, held(left, Differ, left), None, 0), Ok(Clash));
    assert_eq!(applied(23, held(left, Same, left), None, 0), MISFIT);
    assert_eq!(applied(23, barred(left, Same, left), None, 0), MISFIT);
    assert_eq!(applied(23, held(open, Differ, open), None, 0), MISFIT);
}
