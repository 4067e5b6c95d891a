//! The inputs of the differential run. Input number i of seed s is a function of (s, i) alone.
//!
//! `recipes` makes an input of each kind, of these parts: `patterns` and `crowd` make random patterns, `slots`
//! those whose entries share slots, `paths` those of many paths (`rows` says which of them have their rows),
//! `models` random models, `walk` random tableaux; `corpus` keeps what the planner found for them and for
//! patterns that can't occur, which `contradiction` and `composition` make.
//! `texts` makes texts of typed patterns.
//! `rename`, `asked`, `disorder`, `age` and `mutate` change files, and `limits` writes those at document 01's limits.
//! `area` is the working area, or the destination of what is written.

mod age;
pub mod area;
mod asked;
mod composition;
mod contradiction;
mod corpus;
mod crowd;
mod disorder;
pub mod input;
mod limits;
pub mod models;
mod mutate;
mod paths;
mod patterns;
mod recipes;
mod rename;
pub mod rows;
pub mod slots;
pub mod texts;
mod walk;

use corpus::Corpus;
use input::Input;
use oracle::random::Random;

/// How many inputs share their plans.
pub const BLOCK: u64 = 512;

/// Makes the inputs of a seed.
pub struct Generator {
    seed: u64,
    block: u64,
    /// The plans of the block.
    corpus: Corpus,
}

impl Generator {
    pub fn new(seed: u64) -> Generator {
        Generator { seed, block: 0, corpus: plan(seed, 0) }
    }

    /// Makes the input of the number.
    pub fn make(&mut self, number: u64, input: &mut Input) {
        let block = number / BLOCK;
        if self.block != block {
            (self.block, self.corpus) = (block, plan(self.seed, block));
        }
        recipes::make(&mut Random::new(self.seed, number), &self.corpus, input);
    }
}

/// The plans of a block, from a stream of random numbers of its own.
fn plan(seed: u64, block: u64) -> Corpus {
    Corpus::plan(&mut Random::new(!seed, block))
}
