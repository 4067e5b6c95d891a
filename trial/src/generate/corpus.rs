//! Planned proposals, made once for a block of inputs and then changed in many ways.

use super::composition::composition;
use super::contradiction::contradiction;
use super::crowd::crowded;
use super::patterns;
use oracle::pattern::Pattern;
use oracle::planner::{self, Effort, Plan, impossible};
use oracle::random::Random;

/// A pattern and a proposal for it, with the files of both.
pub struct Planned {
    pub pattern: Pattern,
    pub pattern_file: Vec<u8>,
    pub proposal_file: Vec<u8>,
}

/// The plans of a block: patterns with closed tableaux, and patterns with models that meet them.
#[derive(Default)]
pub struct Corpus {
    pub closed: Vec<Planned>,
    pub met: Vec<Planned>,
}

/// How many patterns of each sort are planned for a block, besides the planner's own that can't occur.
const COMPOSITIONS: usize = 24;
const CONTRADICTIONS: usize = 24;
const CROWDED: usize = 32;
const RANDOM: usize = 32;

/// How long the planner searches for one of them.
const BUDGET: usize = 1000;

impl Corpus {
    pub fn plan(random: &mut Random) -> Corpus {
        let mut corpus = Corpus::default();
        let impossible = impossible::patterns();
        for _ in 0..COMPOSITIONS {
            let pattern = composition(random, &impossible);
            corpus.add(random, pattern);
        }
        for _ in 0..CONTRADICTIONS {
            let entries = random.between(3, 12);
            let pattern = patterns::of_size(random, entries);
            let pattern = contradiction(random, &pattern);
            corpus.add(random, pattern);
        }
        for _ in 0..CROWDED {
            let pattern = crowded(random);
            corpus.add(random, Some(pattern));
        }
        for _ in 0..RANDOM {
            let entries = random.between(3, 20);
            let pattern = patterns::of_size(random, entries);
            corpus.add(random, Some(pattern));
        }
        for pattern in impossible {
            corpus.add(random, Some(pattern));
        }
        corpus
    }

    /// Adds a plan for the pattern, if there is one and a plan is found.
    fn add(&mut self, random: &mut Random, pattern: Option<Pattern>) {
        let Some(pattern) = pattern else { return };
        let seed = if random.once_in(4) { 0 } else { random.number() };
        let (plans, proposal_file) = match planner::plan(&pattern, Effort { budget: BUDGET, seed }) {
            Some(Plan::Tableau(tableau)) => (&mut self.closed, tableau.to_bytes()),
            Some(Plan::Model(model)) => (&mut self.met, model.to_bytes()),
            None => return,
        };
        plans.push(Planned { pattern_file: pattern.to_bytes(), pattern, proposal_file });
    }
}
