//! Axes: what is after a node (rules 5 and 6).

use super::{ASIDE, BLUE, Build, DOWN, RED, X, at};
use crate::planner::builder::Builder;

pub const ALL: [Build; 4] = [after_and_not, after_less, after_named, after_from_named];

/// Reading A.
fn after_and_not(b: &mut Builder) -> usize {
    let red = b.property(RED);
    let after = b.after(DOWN, red);
    let not_after = b.not(after);
    b.both(after, not_after)
}

fn after_less(b: &mut Builder) -> usize {
    let (red, blue) = (b.property(RED), b.property(BLUE));
    let both = b.both(red, blue);
    let after_both = b.after(DOWN, both);
    let after_blue = b.after(DOWN, blue);
    let not_after_blue = b.not(after_blue);
    b.both(after_both, not_after_blue)
}

fn after_named(b: &mut Builder) -> usize {
    let (x, red) = (b.name(X), b.property(RED));
    let (after_x, after_red) = (b.after(ASIDE, x), b.after(ASIDE, red));
    let not_after_red = b.not(after_red);
    let x_is_red = at(b, X, red);
    b.all(&[after_x, not_after_red, x_is_red])
}

fn after_from_named(b: &mut Builder) -> usize {
    let (x, red) = (b.name(X), b.property(RED));
    let after_red = b.after(ASIDE, red);
    let not_after_red = b.not(after_red);
    let x_leads_to_red = at(b, X, after_red);
    b.all(&[x, not_after_red, x_leads_to_red])
}
