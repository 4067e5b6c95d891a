//! The walk along the branches of a tableau, left sides first: refusals 25 and 19 to 24.

use super::line::Line;
use super::rules::{self, Conclusion, Step};
use crate::pattern::Pattern;

/// The most lines that a branch may have.
pub const MAX_LINES: usize = 1024;
/// The most right sides that may wait for their left sides.
pub const MAX_WAITING: usize = 64;

/// A right side whose left side is still being checked.
struct RightSide {
    /// How many lines stood on the branch before the fork.
    lines_before: usize,
    first_line: Line,
}

/// Where a walk stands: the branch that the next step belongs to, and the right sides still to come.
pub struct Walk<'a> {
    pattern: &'a Pattern,
    branch: Vec<Line>,
    /// The innermost fork's right side is last, and is walked first.
    waiting: Vec<RightSide>,
    open: bool,
    most: usize,
}

impl<'a> Walk<'a> {
    /// "Line 0 is: start name has the root."
    pub fn begin(pattern: &'a Pattern, start: u8) -> Self {
        let root = Line::Has { holds: true, name: start, entry: pattern.entries.len() - 1 };
        Walk { pattern, branch: vec![root], waiting: Vec::new(), open: true, most: 0 }
    }

    /// Checks a step and follows it: refusals 25 and 19 to 24 (by number), or the step's conclusion.
    pub fn take(&mut self, step: &Step) -> Result<Conclusion, u16> {
        if !self.open {
            return Err(25);
        }
        let conclusion = rules::apply(self.pattern, &self.branch, step)?;
        if self.branch.len() + lines_added(&conclusion) > MAX_LINES {
            return Err(23);
        }
        if matches!(conclusion, Conclusion::Fork(..)) && self.waiting.len() >= MAX_WAITING {
            return Err(24);
        }
        self.follow(conclusion);
        Ok(conclusion)
    }

    fn follow(&mut self, conclusion: Conclusion) {
        match conclusion {
            Conclusion::One(line) => self.branch.push(line),
            Conclusion::Two(first, second) => self.branch.extend([first, second]),
            Conclusion::Fork(left, right) => {
                self.waiting.push(RightSide { lines_before: self.branch.len(), first_line: right });
                self.branch.push(left);
            }
            Conclusion::Clash => self.leave_branch(),
        }
    }

    /// "A clash ends its branch": the innermost right side is next, with the lines before its fork.
    fn leave_branch(&mut self) {
        self.most = self.most.max(self.branch.len());
        match self.waiting.pop() {
            Some(right) => {
                self.branch.truncate(right.lines_before);
                self.branch.push(right.first_line);
            }
            None => self.open = false,
        }
    }

    /// Whether a branch is still without a clash.
    pub fn is_open(&self) -> bool {
        self.open
    }

    /// The lines of the branch that the next step belongs to (of the last one when all have ended).
    pub fn branch(&self) -> &[Line] {
        &self.branch
    }

    /// How many right sides wait.
    pub fn waiting(&self) -> usize {
        self.waiting.len()
    }

    /// The largest number of lines that a branch had at its clash.
    pub fn most_lines(&self) -> usize {
        self.most
    }
}

/// How many lines the branch gains: at a fork each side gets one.
fn lines_added(conclusion: &Conclusion) -> usize {
    match conclusion {
        Conclusion::One(_) | Conclusion::Fork(..) => 1,
        Conclusion::Two(..) => 2,
        Conclusion::Clash => 0,
    }
}
