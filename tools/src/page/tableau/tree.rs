//! The tree of a tableau's branches as data.

use oracle::pattern::Pattern;
use oracle::tableau::Tableau;
use oracle::tableau::line::Line;
use oracle::tableau::rules::{Conclusion, Step, uses_q};
use oracle::tableau::walk::Walk;
use std::ops::Range;

/// The lines P and Q that a step uses, by their places in `Tree::lines`, as far as the branch has them.
pub type Used = [Option<usize>; 2];

/// A line with its number on its branches.
pub struct Numbered {
    pub number: usize,
    pub line: Line,
}

/// A step that was taken.
pub struct Taken {
    pub used: Used,
    /// The lines that it adds, in `Tree::lines`. Those of a fork are the first lines of its sides.
    pub lines: Range<usize>,
}

/// The step that was refused.
pub struct Refused {
    pub used: Used,
    /// Whether there was no open branch that it could belong to.
    pub behind: bool,
}

/// The side of a fork on which a segment is.
#[derive(Clone, Copy)]
pub struct Side {
    pub fork: usize,
    pub word: &'static str,
    /// The segment that the fork ends.
    pub parent: usize,
}

/// What is at the end of a segment.
#[derive(Clone, Copy, PartialEq, Eq, Debug)]
pub enum End {
    /// The segments on the left and the right, which both stand behind this one in `Tree::segments`.
    Fork([usize; 2]),
    Clash,
    /// A refused step, or no step.
    Open,
    /// The walk ended before it came here.
    NotReached,
}

/// The part of a branch between two forks.
pub struct Segment {
    /// Nothing of the first one.
    pub side: Option<Side>,
    pub first_line: usize,
    pub steps: Range<usize>,
    pub end: End,
}

/// The tree of the steps before the end or the refused one.
pub struct Tree {
    pub lines: Vec<Numbered>,
    pub steps: Vec<Taken>,
    pub segments: Vec<Segment>,
    pub refused: Option<Refused>,
}

/// A tree and where the walk that makes it stands.
struct Growth<'a> {
    walk: Walk<'a>,
    tree: Tree,
    /// The present branch's lines by their places in `Tree::lines`.
    branch: Vec<usize>,
    /// The right sides still to come, the innermost last.
    waiting: Vec<usize>,
    present: usize,
}

impl Tree {
    /// The tree of a tableau.
    pub fn grow(pattern: &Pattern, tableau: &Tableau) -> Tree {
        let walk = Walk::begin(pattern, tableau.start);
        let lines = vec![Numbered { number: 0, line: walk.branch()[0] }];
        let segments = vec![Segment { side: None, first_line: 0, steps: 0..0, end: End::Open }];
        let tree = Tree { lines, steps: Vec::new(), segments, refused: None };
        let mut growth = Growth { walk, tree, branch: vec![0], waiting: Vec::new(), present: 0 };
        for step in &tableau.steps {
            if !growth.take(step) {
                break;
            }
        }
        growth.tree
    }

    /// The segment on which the refused step or the open end is, if it is on one.
    pub fn fault(&self) -> Option<usize> {
        self.segments.iter().position(|segment| segment.end == End::Open)
    }
}

impl Growth<'_> {
    /// Takes a step; says whether it wasn't refused.
    fn take(&mut self, step: &Step) -> bool {
        let (behind, used) = (!self.walk.is_open(), self.used(step));
        let Ok(conclusion) = self.walk.take(step) else {
            self.tree.refused = Some(Refused { used: if behind { [None; 2] } else { used }, behind });
            return false;
        };
        let first = self.tree.lines.len();
        self.tree.segments[self.present].steps.end += 1;
        match conclusion {
            Conclusion::One(line) => self.add(&[line]),
            Conclusion::Two(one, two) => self.add(&[one, two]),
            Conclusion::Fork(left, right) => self.fork(left, right),
            Conclusion::Clash => self.clash(),
        }
        self.tree.steps.push(Taken { used, lines: first..self.tree.lines.len() });
        true
    }

    fn used(&self, step: &Step) -> Used {
        let line = |number: u16| self.branch.get(number as usize).copied();
        [line(step.p), if uses_q(step.rule) { line(step.q) } else { None }]
    }

    fn add(&mut self, lines: &[Line]) {
        for &line in lines {
            self.branch.push(self.tree.lines.len());
            self.tree.lines.push(Numbered { number: self.branch.len() - 1, line });
        }
    }

    fn fork(&mut self, left: Line, right: Line) {
        let (number, first_line) = (self.branch.len(), self.tree.lines.len());
        self.tree.lines.extend([left, right].map(|line| Numbered { number, line }));
        let (left, fork) = (self.tree.segments.len(), self.tree.steps.len());
        let sides = [("left", first_line), ("right", first_line + 1)].map(|(word, first_line)| Segment {
            side: Some(Side { fork, word, parent: self.present }),
            first_line,
            steps: 0..0,
            end: End::NotReached,
        });
        self.tree.segments.extend(sides);
        self.tree.segments[self.present].end = End::Fork([left, left + 1]);
        self.waiting.push(left + 1);
        self.enter(left);
    }

    fn clash(&mut self) {
        self.tree.segments[self.present].end = End::Clash;
        if let Some(right) = self.waiting.pop() {
            self.enter(right);
        }
    }

    /// Goes on behind the present step with a segment, on the lines before its first one.
    fn enter(&mut self, segment: usize) {
        let (next, entered) = (self.tree.steps.len() + 1, &mut self.tree.segments[segment]);
        (entered.steps, entered.end) = (next..next, End::Open);
        self.branch.truncate(self.tree.lines[entered.first_line].number);
        self.branch.push(entered.first_line);
        self.present = segment;
    }
}
