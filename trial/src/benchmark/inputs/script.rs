//! Writing a tableau step by step, its branch known at each of them.

use oracle::pattern::Pattern;
use oracle::tableau::Tableau;
use oracle::tableau::line::Line;
use oracle::tableau::rules::{Conclusion, Step, apply};

pub struct Script<'a> {
    pattern: &'a Pattern,
    start: u8,
    steps: Vec<Step>,
    branch: Vec<Line>,
    /// Right sides to come: the lines before the fork, and the right side's line.
    waiting: Vec<(usize, Line)>,
}

impl<'a> Script<'a> {
    pub fn new(pattern: &'a Pattern, start: u8) -> Script<'a> {
        let root = Line::Has { holds: true, name: start, entry: pattern.entries.len() - 1 };
        Script { pattern, start, steps: Vec::new(), branch: vec![root], waiting: Vec::new() }
    }

    /// Adds a step and gives the number of its first new line (of the left side's, if it forks). After a
    /// clash the branch is the right side that waited last, if one did.
    pub fn step(&mut self, rule: u8, p: usize, q: usize, argument: u8) -> usize {
        let step = Step { rule, p: p as u16, q: q as u16, argument };
        let conclusion = apply(self.pattern, &self.branch, &step)
            .unwrap_or_else(|number| panic!("step {} is refused {number}: {step:?}", self.steps.len()));
        self.steps.push(step);
        let new = self.branch.len();
        match conclusion {
            Conclusion::One(line) => self.branch.push(line),
            Conclusion::Two(first, second) => self.branch.extend([first, second]),
            Conclusion::Fork(left, right) => {
                self.waiting.push((new, right));
                self.branch.push(left);
            }
            Conclusion::Clash => {
                if let Some((lines, right)) = self.waiting.pop() {
                    self.branch.truncate(lines);
                    self.branch.push(right);
                }
            }
        }
        new
    }

    /// A step of a rule that looks at P alone.
    pub fn use_line(&mut self, rule: u8, p: usize) -> usize {
        self.step(rule, p, 0, 0)
    }

    /// The number of the branch's last line.
    pub fn last(&self) -> usize {
        self.branch.len() - 1
    }

    /// How many steps there are so far.
    pub fn steps(&self) -> usize {
        self.steps.len()
    }

    pub fn tableau(self) -> Tableau {
        Tableau { start: self.start, steps: self.steps }
    }
}
