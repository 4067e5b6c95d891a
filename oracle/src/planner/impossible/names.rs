//! Names: nodes with more than one name (rules 4, 17 to 19, and 23).

use super::{Build, RED, X, Y, Z, at};
use crate::planner::builder::Builder;

pub const ALL: [Build; 5] = [not_itself, named_twice, named_both_ways, named_in_a_row, red_by_name_only];

fn not_itself(b: &mut Builder) -> usize {
    let x = b.name(X);
    let not_x = b.not(x);
    at(b, X, not_x)
}

fn named_twice(b: &mut Builder) -> usize {
    let (x, y) = (b.name(X), b.name(Y));
    let not_y = b.not(y);
    let x_is_not_y = at(b, X, not_y);
    b.all(&[x, y, x_is_not_y])
}

fn named_both_ways(b: &mut Builder) -> usize {
    let (x, y) = (b.name(X), b.name(Y));
    let not_x = b.not(x);
    let (there, back) = (at(b, X, y), at(b, Y, not_x));
    b.both(there, back)
}

fn named_in_a_row(b: &mut Builder) -> usize {
    let (y, z, red) = (b.name(Y), b.name(Z), b.property(RED));
    let not_red = b.not(red);
    let row = [at(b, X, y), at(b, Y, z), at(b, Z, red), at(b, X, not_red)];
    b.all(&row)
}

fn red_by_name_only(b: &mut Builder) -> usize {
    let (x, red) = (b.name(X), b.property(RED));
    let not_red = b.not(red);
    let x_is_red = at(b, X, red);
    b.all(&[x, not_red, x_is_red])
}
