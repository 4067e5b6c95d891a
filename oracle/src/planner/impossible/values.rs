//! Values: ends that are the same and differ (rules 16, 18, 20, 22 and 23).

use super::{ASIDE, Build, DOWN, X, Y, Z};
use crate::planner::builder::{Builder, END};

pub const ALL: [Build; 6] = [
    differs_from_itself,
    not_same_as_itself,
    named_and_differs,
    same_in_a_row,
    none_differ_but_the_ends,
    same_by_steps,
];

/// Reading I.
fn differs_from_itself(b: &mut Builder) -> usize {
    b.differ(0, END, END)
}

fn not_same_as_itself(b: &mut Builder) -> usize {
    let same = b.same(3, END, END);
    b.not(same)
}

fn named_and_differs(b: &mut Builder) -> usize {
    let x = b.name(X);
    let to_x = b.jump(X, END);
    let differ = b.differ(1, END, to_x);
    b.both(x, differ)
}

fn same_in_a_row(b: &mut Builder) -> usize {
    let [x, y, z] = [X, Y, Z].map(|name| b.jump(name, END));
    let row = [b.same(0, x, y), b.same(0, z, y), b.differ(0, x, z)];
    b.all(&row)
}

fn none_differ_but_the_ends(b: &mut Builder) -> usize {
    let [x, y, z] = [X, Y, Z].map(|name| b.jump(name, END));
    let differ = [b.differ(2, x, y), b.differ(2, y, z)];
    let none = differ.map(|differ| b.not(differ));
    let ends = b.differ(2, z, x);
    b.all(&[none[0], none[1], ends])
}

fn same_by_steps(b: &mut Builder) -> usize {
    let (down, aside, to_x) = (b.step(DOWN, END), b.step(ASIDE, END), b.jump(X, END));
    let down_is_here = b.differ(0, down, END);
    let aside_is_here = b.differ(0, END, aside);
    let all_are_here = [b.not(down_is_here), b.not(aside_is_here)];
    let x_is_below = b.same(0, to_x, down);
    let x_is_not_aside = b.differ(0, aside, to_x);
    b.all(&[all_are_here[0], all_are_here[1], x_is_below, x_is_not_aside])
}
