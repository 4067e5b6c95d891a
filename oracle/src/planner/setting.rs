//! What stays the same through a whole search: the pattern, the planner's habits, and the order of names.

use crate::pattern::{MAX_NAME, Pattern};
use crate::random::Random;

/// How many names there are.
pub const NAMES: usize = MAX_NAME as usize + 1;

/// Ways to search that all close what can't occur, but with other rules. Each is one of the seed's lowest
/// bits, so that seed 0 has none of them and sixteen seeds in a row go through all mixtures.
#[derive(Clone, Copy, Debug)]
pub struct Habits {
    /// Takes lines apart to the last, where a clash of two larger lines would do.
    pub thorough: bool,
    /// Brings the right side of a comparison to the left (rule 8) while the left still has a path.
    pub right_first: bool,
    /// Puts one name for another in comparisons of ends too (rule 19), where rules 18 and 20 would do.
    pub renames_ends: bool,
    /// Takes steps that lead nowhere, and leaves many of them in the tableau.
    pub wanders: bool,
}

impl Habits {
    fn of(seed: u64) -> Habits {
        let bit = |number: u32| seed >> number & 1 == 1;
        Habits { thorough: bit(0), right_first: bit(1), renames_ends: bit(2), wanders: bit(3) }
    }
}

pub struct Setting<'a> {
    pub pattern: &'a Pattern,
    pub habits: Habits,
    /// The names that the pattern doesn't use, in the order in which branches take them.
    pub free: Vec<u8>,
    /// For each name, how many come before it: first the pattern's, then the free ones.
    rank: [usize; NAMES],
}

impl<'a> Setting<'a> {
    pub fn new(pattern: &'a Pattern, seed: u64, random: &mut Random) -> Setting<'a> {
        let (used, mut free): (Vec<u8>, Vec<u8>) = (0..=MAX_NAME).partition(|&name| pattern.uses(name));
        random.shuffle(&mut free);
        let mut rank = [0; NAMES];
        for (before, &name) in used.iter().chain(&free).enumerate() {
            rank[name as usize] = before;
        }
        Setting { pattern, habits: Habits::of(seed), free, rank }
    }

    /// Whether the first of two names that are one node is the one to keep.
    pub fn prefers(&self, first: u8, second: u8) -> bool {
        self.rank[first as usize] < self.rank[second as usize]
    }
}
