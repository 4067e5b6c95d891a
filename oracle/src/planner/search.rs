//! The search for a closed tableau: one branch at a time, as a tableau file walks them.
//!
//! No step is ever taken back, because no rule that adds lines loses anything: a branch that has no step left
//! to take can be made true, and then the pattern can occur.

use std::ops::ControlFlow;

use super::Effort;
use super::branch::{Branch, Full};
use super::proof::Proof;
use super::setting::Setting;
use crate::model::Model;
use crate::pattern::Pattern;
use crate::random::Random;
use crate::tableau::Tableau;
use crate::tableau::line::Line;
use crate::tableau::rules::{Conclusion, Step};

/// How a search ended.
pub enum Outcome {
    Closed(Tableau),
    /// A branch stays open; it reads as this model, unless the model file has no room for it.
    Open(Option<Model>),
    /// The budget, or what a tableau file can hold, was used up.
    Undecided,
}

/// Searches within the budget. The watcher is told before each step how many were taken.
pub fn search(pattern: &Pattern, effort: Effort, watch: &mut dyn FnMut(usize)) -> Outcome {
    let mut random = Random::new(effort.seed, 0);
    let setting = Setting::new(pattern, effort.seed, &mut random);
    let Some(branch) = Branch::begin(&setting) else { return Outcome::Undecided };
    let mut search = Search { random, budget: effort.budget, spent: 0, watch };
    match search.close(branch) {
        Ok(proof) => match proof.steps() {
            Some(steps) => Outcome::Closed(Tableau { start: setting.free[0], steps }),
            None => Outcome::Undecided,
        },
        Err(Stop::Open(model)) => Outcome::Open(model),
        Err(Stop::UsedUp) => Outcome::Undecided,
    }
}

/// Why a branch wasn't closed.
enum Stop {
    Open(Option<Model>),
    UsedUp,
}

impl From<Full> for Stop {
    fn from(_: Full) -> Stop {
        Stop::UsedUp
    }
}

/// How a branch that was followed goes on.
enum Turn {
    Clash(Step),
    Fork(Fork),
}

/// A fork: its step and the new line of either side.
struct Fork {
    step: Step,
    left: Line,
    right: Line,
}

/// A fork that is being closed: the branch up to it, and its left side once that is closed.
struct Pending<'a> {
    branch: Branch<'a>,
    fork: Fork,
    left: Option<Proof>,
}

struct Search<'w> {
    random: Random,
    budget: usize,
    spent: usize,
    watch: &'w mut dyn FnMut(usize),
}

impl Search<'_> {
    /// Closes the branch and all sides of its forks, left sides first.
    fn close(&mut self, mut branch: Branch) -> Result<Proof, Stop> {
        let mut forks = Vec::new();
        loop {
            branch = match self.follow(&mut branch)? {
                Turn::Fork(fork) => {
                    let left = branch.side(fork.left);
                    forks.push(Pending { branch, fork, left: None });
                    left
                }
                Turn::Clash(step) => {
                    let proof = self.preceded(Proof::clash(step), branch);
                    match self.next_side(proof, &mut forks) {
                        ControlFlow::Continue(right) => right,
                        ControlFlow::Break(proof) => return Ok(proof),
                    }
                }
            };
        }
    }

    /// Takes steps until the branch clashes or has only forks left.
    fn follow(&mut self, branch: &mut Branch) -> Result<Turn, Stop> {
        loop {
            if let Some(step) = branch.clash(&mut self.random) {
                return Ok(Turn::Clash(step));
            }
            self.spend()?;
            if branch.setting.habits.wanders && self.random.once_in(4) {
                branch.wander(&mut self.random);
            }
            if let Some(step) = branch.agenda.take(&mut self.random) {
                branch.advance(step)?;
            } else if let Some(fork) = self.next_fork(branch) {
                return Ok(Turn::Fork(fork));
            } else {
                return Err(Stop::Open(branch.model()));
            }
        }
    }

    /// Takes a step off the budget.
    fn spend(&mut self) -> Result<(), Stop> {
        if self.spent == self.budget {
            return Err(Stop::UsedUp);
        }
        (self.watch)(self.spent);
        self.spent += 1;
        Ok(())
    }

    /// From a closed side back to the next right side, or to the proof if there is none. A side that closes
    /// without its new line closes the whole fork.
    fn next_side<'a>(
        &mut self,
        mut proof: Proof,
        forks: &mut Vec<Pending<'a>>,
    ) -> ControlFlow<Proof, Branch<'a>> {
        while let Some(Pending { branch, fork, left }) = forks.pop() {
            let at = branch.lines.len() as u16;
            proof = match left {
                _ if !proof.needs(at) => proof,
                Some(left) => Proof::fork(fork.step, at, left, proof),
                None => {
                    let right = branch.side(fork.right);
                    forks.push(Pending { branch, fork, left: Some(proof) });
                    return ControlFlow::Continue(right);
                }
            };
            proof = self.preceded(proof, branch);
        }
        ControlFlow::Break(proof)
    }

    /// The proof with the branch's own steps before it, cleared of what it doesn't need.
    fn preceded(&mut self, proof: Proof, branch: Branch) -> Proof {
        let wanders = branch.setting.habits.wanders;
        proof.preceded_by(branch.moves, || wanders && self.random.once_in(2))
    }

    /// The fork with the most sides that clash at once; forks that tell nothing new are dropped.
    fn next_fork(&mut self, branch: &mut Branch) -> Option<Fork> {
        let steps = std::mem::take(&mut branch.agenda.forks);
        let mut forks: Vec<Fork> = steps.into_iter().filter_map(|step| useful_fork(branch, step)).collect();
        let clashes =
            |fork: &Fork| [fork.left, fork.right].into_iter().filter(|&line| branch.denies(line)).count();
        let best = (0..forks.len()).max_by_key(|&place| (clashes(&forks[place]), self.random.number()))?;
        let fork = forks.swap_remove(best);
        branch.agenda.forks = forks.iter().map(|fork| fork.step).collect();
        Some(fork)
    }
}

/// The fork that the step is, unless its names are outdated or a side is there already.
fn useful_fork(branch: &Branch, step: Step) -> Option<Fork> {
    let conclusion = branch.planned(step);
    match conclusion {
        _ if branch.is_outdated(step) || branch.is_needless(step.rule, conclusion) => None,
        Conclusion::Fork(left, right) => Some(Fork { step, left, right }),
        _ => None,
    }
}
