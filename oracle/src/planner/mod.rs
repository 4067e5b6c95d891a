//! Searches for a proposal: a closed tableau, or a small model that meets the pattern.
//!
//! `search` goes along the branches of a tableau. A branch (`branch`) keeps its lines, which names are one
//! node (`aliases`), which data are the same (`values`) and the steps it could take (`agenda`); `clash` ends
//! it, and `open` reads a model off it when it can't be ended. `proof` is the closed tableau. `guess` tries
//! small models where the search didn't decide. `builder` and `impossible` make patterns to try this on.

mod agenda;
mod aliases;
mod branch;
pub mod builder;
mod clash;
mod consider;
mod guess;
pub mod impossible;
mod open;
mod proof;
mod search;
mod setting;
mod shape;
mod values;

use crate::model::Model;
use crate::pattern::Pattern;
use crate::tableau::Tableau;
use guess::{guess, meets};
use search::{Outcome, search};

/// What the planner found.
#[derive(Clone, Debug, PartialEq, Eq)]
pub enum Plan {
    /// The pattern can't occur: a tableau that judging finds closed.
    Tableau(Tableau),
    /// The pattern can occur: a model that judging finds met.
    Model(Model),
}

/// How long to search, and in what order to try what is equally good.
#[derive(Clone, Copy, Debug)]
pub struct Effort {
    /// The most steps (or candidate models) that are tried before giving up.
    pub budget: usize,
    /// Settles the order of equal choices: the same seed gives the same plan. Seed 0 gives short tableaux,
    /// others also longer ways round.
    pub seed: u64,
}

/// A closed tableau for the pattern, if one is found within the budget.
pub fn close(pattern: &Pattern, effort: Effort) -> Option<Tableau> {
    match search(pattern, effort, &mut |_| ()) {
        Outcome::Closed(tableau) => Some(tableau),
        Outcome::Open(_) | Outcome::Undecided => None,
    }
}

/// A model that meets the pattern, if one is found within the budget.
pub fn meet(pattern: &Pattern, effort: Effort) -> Option<Model> {
    match plan(pattern, effort) {
        Some(Plan::Model(model)) => Some(model),
        Some(Plan::Tableau(_)) | None => None,
    }
}

/// Either: half of the budget is for the tableau and, if it stays undecided, half for models.
pub fn plan(pattern: &Pattern, effort: Effort) -> Option<Plan> {
    plan_watched(pattern, effort, &mut |_| ())
}

/// The same. The watcher is told before each step and each candidate model how much of the budget is spent:
/// half of it as soon as models are tried.
pub fn plan_watched(pattern: &Pattern, effort: Effort, watch: &mut dyn FnMut(usize)) -> Option<Plan> {
    let half = Effort { budget: effort.budget.div_ceil(2), ..effort };
    match search(pattern, half, watch) {
        Outcome::Closed(tableau) => Some(Plan::Tableau(tableau)),
        Outcome::Open(Some(model)) if meets(pattern, &model) => Some(Plan::Model(model)),
        Outcome::Open(_) | Outcome::Undecided => {
            guess(pattern, half, &mut |tried| watch(half.budget + tried)).map(Plan::Model)
        }
    }
}
