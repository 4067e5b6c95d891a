//! Paths: comparisons taken apart on the way to the ends (rules 7 to 16).

use super::{ASIDE, BLUE, Build, DOWN, RED, X, at};
use crate::planner::builder::{Builder, END};

pub const ALL: [Build; 8] = [
    same_but_exchanged,
    test_on_the_way,
    test_passed,
    fork_without_ends,
    fork_barred,
    fork_and_tests_barred,
    neither_same_nor_differ,
    test_after_jump,
];

fn same_but_exchanged(b: &mut Builder) -> usize {
    let down = b.step(DOWN, END);
    let same = b.same(1, down, END);
    let exchanged = b.same(1, END, down);
    let barred = b.not(exchanged);
    b.both(same, barred)
}

fn test_on_the_way(b: &mut Builder) -> usize {
    let red = b.property(RED);
    let tested = b.test(red, END);
    let (down, down_to_red) = (b.step(DOWN, END), b.step(DOWN, tested));
    let differ = b.differ(2, down_to_red, END);
    let none = b.differ(2, down, END);
    let barred = b.not(none);
    b.both(differ, barred)
}

fn test_passed(b: &mut Builder) -> usize {
    let red = b.property(RED);
    let tested = b.test(red, END);
    let same = b.same(3, END, tested);
    let barred = b.not(same);
    b.both(red, barred)
}

fn fork_without_ends(b: &mut Builder) -> usize {
    let (down, aside) = (b.step(DOWN, END), b.step(ASIDE, END));
    let fork = b.fork(down, aside);
    let some = b.same(2, fork, END);
    let none = [down, aside].map(|path| {
        let same = b.same(2, path, END);
        b.not(same)
    });
    b.all(&[some, none[0], none[1]])
}

fn fork_barred(b: &mut Builder) -> usize {
    let red = b.property(RED);
    let (down, aside, tested) = (b.step(DOWN, END), b.step(ASIDE, END), b.test(red, END));
    let fork = b.fork(tested, down);
    let same = b.same(0, aside, down);
    let none = b.same(0, fork, aside);
    let barred = b.not(none);
    b.both(same, barred)
}

fn fork_and_tests_barred(b: &mut Builder) -> usize {
    let (red, blue) = (b.property(RED), b.property(BLUE));
    let (to_red, to_blue) = (b.test(red, END), b.test(blue, END));
    let fork = b.fork(to_red, to_blue);
    let (down, down_to_either) = (b.step(DOWN, END), b.step(DOWN, fork));
    let after_red = b.after(DOWN, red);
    let none = b.same(3, down_to_either, down);
    let barred = b.not(none);
    b.both(after_red, barred)
}

/// Both axes lead somewhere, so two ends there have values that are the same or differ.
fn neither_same_nor_differ(b: &mut Builder) -> usize {
    let red = b.property(RED);
    let (down, aside) = (b.step(DOWN, END), b.step(ASIDE, END));
    let some = [b.after(DOWN, red), b.after(ASIDE, red)];
    let same = b.same(0, down, aside);
    let differ = b.differ(0, down, aside);
    let neither = [b.not(same), b.not(differ)];
    b.all(&[some[0], some[1], neither[0], neither[1]])
}

fn test_after_jump(b: &mut Builder) -> usize {
    let (red, blue) = (b.property(RED), b.property(BLUE));
    let (to_red, to_blue) = (b.test(red, END), b.test(blue, END));
    let fork = b.fork(to_red, to_blue);
    let from_x = b.jump(X, fork);
    let some = b.same(1, from_x, END);
    let (not_red, not_blue) = (b.not(red), b.not(blue));
    let neither = [at(b, X, not_red), at(b, X, not_blue)];
    b.all(&[some, neither[0], neither[1]])
}
