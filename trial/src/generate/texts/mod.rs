//! Texts of typed patterns: `tree` writes random ones of the grammar, `shapes` deep, wide and long ones, `numbers` those
//! with a number at or beyond its limit, and `faults` spoils them.

mod faults;
mod numbers;
mod shapes;
mod tree;

pub use faults::{misplace, spoil};
pub use numbers::with_number;
pub use shapes::{exactly, long, shaped};

use crate::generate::patterns;
use oracle::random::Random;
use oracle::typed::spell;

/// A text of the grammar: mostly small, now and then that of a random pattern, or a shape.
pub fn random(random: &mut Random) -> Vec<u8> {
    match random.below(8) {
        0 => shaped(random),
        1 | 2 => spelled(random),
        _ => {
            let items = match random.below(32) {
                0 => random.between(60, 250),
                1..6 => random.between(15, 60),
                _ => random.between(1, 15),
            };
            tree::text(random, items)
        }
    }
}

/// A small text of the grammar.
fn small(random: &mut Random) -> Vec<u8> {
    let items = random.between(1, 15);
    tree::text(random, items)
}

/// The text of a random pattern, if it isn't too long.
fn spelled(random: &mut Random) -> Vec<u8> {
    let pattern = patterns::random(random);
    spell(&pattern).map_or_else(|| small(random), String::into_bytes)
}
