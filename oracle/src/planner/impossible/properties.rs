//! Properties: what a node has and lacks (rules 1 to 3, and 21).

use super::{BLUE, Build, RED};
use crate::planner::builder::Builder;

pub const ALL: [Build; 2] = [has_and_lacks, both_and_not_both];

fn has_and_lacks(b: &mut Builder) -> usize {
    let red = b.property(RED);
    let not_red = b.not(red);
    b.both(red, not_red)
}

fn both_and_not_both(b: &mut Builder) -> usize {
    let (red, blue) = (b.property(RED), b.property(BLUE));
    let both = b.both(red, blue);
    let not_both = b.not(both);
    b.all(&[red, blue, not_both])
}
