//! One or the other of two things (rules 24 and 25), each pattern for either way of writing that.

use super::{ASIDE, BLUE, BuildWith, DOWN, Either, GREEN, RED, X, Y, at};
use crate::planner::builder::{Builder, END};

pub const ALL: [BuildWith; 11] = [
    part_but_neither,
    all_four_cases,
    grouped_otherwise,
    either_name,
    after_twice,
    after_one_part,
    either_on_the_way,
    either_passed,
    fork_but_neither_path,
    same_as_either,
    neither_of_either,
];

fn part_but_neither(b: &mut Builder, either: Either) -> usize {
    let (red, blue) = (b.property(RED), b.property(BLUE));
    let coloured = either(b, red, blue);
    let colourless = b.not(coloured);
    b.both(blue, colourless)
}

fn all_four_cases(b: &mut Builder, either: Either) -> usize {
    let (red, blue) = (b.property(RED), b.property(BLUE));
    let (not_red, not_blue) = (b.not(red), b.not(blue));
    let cases = [(red, blue), (red, not_blue), (not_red, blue), (not_red, not_blue)];
    let cases = cases.map(|(phi, psi)| either(b, phi, psi));
    b.all(&cases)
}

fn grouped_otherwise(b: &mut Builder, either: Either) -> usize {
    let [red, blue, green] = [RED, BLUE, GREEN].map(|colour| b.property(colour));
    let red_or_blue = either(b, red, blue);
    let one_way = either(b, red_or_blue, green);
    let blue_or_green = either(b, blue, green);
    let other_way = either(b, red, blue_or_green);
    let denied = b.not(other_way);
    b.both(one_way, denied)
}

fn either_name(b: &mut Builder, either: Either) -> usize {
    let (x, y, red) = (b.name(X), b.name(Y), b.property(RED));
    let x_or_y = either(b, x, y);
    let not_red = b.not(red);
    let (x_is_red, y_is_red) = (at(b, X, red), at(b, Y, red));
    b.all(&[x_or_y, not_red, x_is_red, y_is_red])
}

fn after_twice(b: &mut Builder, either: Either) -> usize {
    let (red, blue) = (b.property(RED), b.property(BLUE));
    let coloured = either(b, red, blue);
    let aside_coloured = b.after(ASIDE, coloured);
    let down_aside_coloured = b.after(DOWN, aside_coloured);
    let none = [red, blue].map(|colour| {
        let aside = b.after(ASIDE, colour);
        let down_aside = b.after(DOWN, aside);
        b.not(down_aside)
    });
    b.all(&[down_aside_coloured, none[0], none[1]])
}

fn after_one_part(b: &mut Builder, either: Either) -> usize {
    let (red, blue) = (b.property(RED), b.property(BLUE));
    let coloured = either(b, red, blue);
    let after_blue = b.after(DOWN, blue);
    let after_coloured = b.after(DOWN, coloured);
    let none = b.not(after_coloured);
    b.both(after_blue, none)
}

fn either_on_the_way(b: &mut Builder, either: Either) -> usize {
    let (red, blue) = (b.property(RED), b.property(BLUE));
    let coloured = either(b, red, blue);
    let [down_to_red, down_to_blue, down_to_coloured] = [red, blue, coloured].map(|colour| {
        let tested = b.test(colour, END);
        b.step(DOWN, tested)
    });
    let some = b.differ(1, down_to_coloured, END);
    let none = [down_to_red, down_to_blue].map(|path| {
        let differ = b.differ(1, path, END);
        b.not(differ)
    });
    b.all(&[some, none[0], none[1]])
}

fn either_passed(b: &mut Builder, either: Either) -> usize {
    let (red, blue) = (b.property(RED), b.property(BLUE));
    let coloured = either(b, red, blue);
    let tested = b.test(coloured, END);
    let same = b.same(3, tested, END);
    let barred = b.not(same);
    b.both(red, barred)
}

fn fork_but_neither_path(b: &mut Builder, either: Either) -> usize {
    let (down, aside) = (b.step(DOWN, END), b.step(ASIDE, END));
    let fork = b.fork(down, aside);
    let some = b.same(2, fork, END);
    let [by_down, by_aside] = [down, aside].map(|path| b.same(2, path, END));
    let by_one = either(b, by_down, by_aside);
    let by_none = b.not(by_one);
    b.both(some, by_none)
}

fn same_as_either(b: &mut Builder, either: Either) -> usize {
    let [x, y] = [X, Y].map(|name| b.jump(name, END));
    let [same_as_x, same_as_y] = [x, y].map(|path| b.same(0, END, path));
    let [not_as_x, not_as_y] = [x, y].map(|path| b.differ(0, END, path));
    let same_as_one = either(b, same_as_x, same_as_y);
    b.all(&[same_as_one, not_as_x, not_as_y])
}

/// The nots of the pattern itself are two of the three by which "one or the other" can be written.
fn neither_of_either(b: &mut Builder, either: Either) -> usize {
    let (red, blue) = (b.property(RED), b.property(BLUE));
    let coloured = either(b, red, blue);
    let (not_red, not_blue) = (b.not(red), b.not(blue));
    b.all(&[coloured, not_red, not_blue])
}
