//! A step and its conclusion: refusals 19 to 22, and which rules clash or fork.
//!
//! What the rules conclude stands beside this file: `entry` has rules 1 to 7, 24 and 25, `comparison` rules
//! 8 to 16, `equality` rules 17 to 20, and `clash` rules 21 to 23.

mod clash;
mod comparison;
mod entry;
mod equality;

use super::line::Line;
use crate::pattern::{MAX_NAME, Pattern};

/// The last rule: 23 of document 01, 25 since Job 6.
pub const LAST_RULE: u8 = 25;

/// A step of a tableau file.
#[derive(Clone, Copy, Debug, PartialEq, Eq)]
pub struct Step {
    pub rule: u8,
    pub p: u16,
    pub q: u16,
    pub argument: u8,
}

/// What a step that follows its rule does to its branch.
#[derive(Clone, Copy, Debug, PartialEq, Eq)]
pub enum Conclusion {
    /// One new line.
    One(Line),
    /// Two new lines, in the stated order.
    Two(Line, Line),
    /// A fork: the left side's new line, and the right side's.
    Fork(Line, Line),
    /// The branch ends.
    Clash,
}

/// The two lines that a step uses. Q is line 0, which every branch has, in a rule that doesn't use it.
#[derive(Clone, Copy)]
struct Premises {
    p: Line,
    q: Line,
}

/// Refusals 19 to 22 (by number), or the conclusion of the step on a branch with these lines.
pub fn apply(pattern: &Pattern, branch: &[Line], step: &Step) -> Result<Conclusion, u16> {
    let conclusion = fit(pattern, branch, step)?;
    if brings_name(step.rule) && !is_fresh(pattern, branch, step.argument) {
        return Err(22);
    }
    Ok(conclusion)
}

/// Refusals 19 to 21 (by number), or the conclusion of the step, be its name fresh or not.
pub fn fit(pattern: &Pattern, branch: &[Line], step: &Step) -> Result<Conclusion, u16> {
    if !(1..=LAST_RULE).contains(&step.rule) {
        return Err(19);
    }
    let premises = premises(branch, step).ok_or(20u16)?;
    conclude(pattern, premises, step).ok_or(21)
}

/// The lines used, or `None` for "a used line not on the branch or an unused field not zero" (20).
fn premises(branch: &[Line], step: &Step) -> Option<Premises> {
    if !uses_q(step.rule) && step.q != 0 || !uses_argument(step.rule) && step.argument != 0 {
        return None;
    }
    Some(Premises { p: *branch.get(step.p as usize)?, q: *branch.get(step.q as usize)? })
}

/// The conclusion, or `None` for "lines or argument don't fit" (21).
fn conclude(pattern: &Pattern, premises: Premises, step: &Step) -> Option<Conclusion> {
    if brings_name(step.rule) && step.argument > MAX_NAME {
        return None;
    }
    match step.rule {
        1..=7 | 24 | 25 => entry::conclude(pattern, premises, step),
        8..=16 => comparison::conclude(pattern, premises, step),
        17..=20 => equality::conclude(premises, step),
        _ => clash::clashes(premises, step.rule).then_some(Conclusion::Clash),
    }
}

/// Whether Q is a line that the rule uses.
pub fn uses_q(rule: u8) -> bool {
    matches!(rule, 6 | 15 | 19 | 20 | 21 | 22)
}

/// Whether the rule uses its argument: a fresh name (5, 14), a channel (18), a place on a line (19).
fn uses_argument(rule: u8) -> bool {
    matches!(rule, 5 | 14 | 18 | 19)
}

/// Whether the argument is a name that must be fresh.
pub fn brings_name(rule: u8) -> bool {
    matches!(rule, 5 | 14)
}

/// "Fresh means not used in the pattern and on no line of the branch".
fn is_fresh(pattern: &Pattern, branch: &[Line], name: u8) -> bool {
    !pattern.uses(name) && !branch.iter().any(|line| line.has_name(name))
}

/// Whether the rule says clash: 21, 22, 23.
pub fn says_clash(rule: u8) -> bool {
    matches!(rule, 21..=23)
}

/// Whether the rule forks the branch in two: 3, 11, 12, 24.
pub fn says_fork(rule: u8) -> bool {
    matches!(rule, 3 | 11 | 12 | 24)
}
