//! A tableau as an indented tree: each step with its new lines, the sides of forks, the clashes.

use super::formula::Formula;
use super::rule;
use super::wording::numbered;
use crate::tableau::Tableau;
use crate::tableau::rules::{Conclusion, Step};
use crate::tableau::walk::Walk;

/// Forks nested more deeply than this are indented no further; their depth is written instead.
const DEEPEST_INDENT: usize = 12;

/// A fork by the number of its step.
#[derive(Clone, Copy)]
struct Fork {
    step: usize,
    /// How many forks the branch had come through before it.
    depth: usize,
}

/// The tree of the steps taken, and where the walk stands after them.
pub struct Tree<'a> {
    formula: &'a Formula<'a>,
    pub walk: Walk<'a>,
    pub text: String,
    /// How many steps were taken: all, or those before the refused one.
    pub taken: usize,
    /// Forks whose right side is still to come, the innermost last.
    forks: Vec<Fork>,
    /// How many forks the present branch has come through.
    depth: usize,
}

impl<'a> Tree<'a> {
    /// The tree of the tableau up to its end or the first refused step.
    pub fn grow(formula: &'a Formula<'a>, walk: Walk<'a>, tableau: &Tableau) -> Self {
        let mut tree = Tree { formula, walk, text: String::new(), taken: 0, forks: Vec::new(), depth: 0 };
        tree.write_lines_from(0);
        for step in &tableau.steps {
            if tree.take(step).is_err() {
                break;
            }
            tree.taken += 1;
        }
        tree
    }

    /// Takes a step and writes it; a refused step is left to the refusal's own explanation.
    fn take(&mut self, step: &Step) -> Result<(), u16> {
        let number = self.taken;
        let lines_before = self.walk.branch().len();
        let used = rule::used_lines(self.formula, self.walk.branch(), step);
        let conclusion = self.walk.take(step)?;
        self.write(&format!("step {number}: {}", rule::step(step)));
        match conclusion {
            Conclusion::One(_) | Conclusion::Two(..) => self.write_lines_from(lines_before),
            Conclusion::Fork(..) => {
                let fork = Fork { step: number, depth: self.depth };
                self.forks.push(fork);
                self.begin_side("left", fork);
            }
            Conclusion::Clash => {
                self.write(&format!("  CLASH: {}", used.join(" against ")));
                if let Some(fork) = self.forks.pop() {
                    self.begin_side("right", fork);
                }
            }
        }
        Ok(())
    }

    /// The walk has just come to the side's first line.
    fn begin_side(&mut self, side: &str, fork: Fork) {
        self.depth = fork.depth;
        self.write(&format!("{side} of step {}:", fork.step));
        self.depth += 1;
        self.write_lines_from(self.walk.branch().len() - 1);
    }

    fn write_lines_from(&mut self, first: usize) {
        for number in first..self.walk.branch().len() {
            let line = numbered(self.formula, self.walk.branch(), number);
            self.write(&format!("  {line}"));
        }
    }

    /// Writes a line of text with the margin of the present depth.
    fn write(&mut self, text: &str) {
        self.text += &"  ".repeat(self.depth.min(DEEPEST_INDENT));
        if self.depth > DEEPEST_INDENT {
            self.text += &format!("(depth {}) ", self.depth);
        }
        self.text += text;
        self.text += "\n";
    }
}
