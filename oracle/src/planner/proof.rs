//! A closed branch as it was found, cleared of what it didn't need, and written as the steps of a file.

use std::collections::BTreeSet;

use crate::tableau::MAX_STEPS;
use crate::tableau::rules::Step;
use crate::tableau::walk::{MAX_LINES, MAX_WAITING};

/// A step that added lines: where the first of them stood on the branch that was searched, and how many.
#[derive(Clone, Copy, Debug)]
pub struct Move {
    pub step: Step,
    pub at: u16,
    pub lines: u16,
}

#[derive(Debug)]
enum End {
    Clash(Step),
    Fork { step: Step, at: u16, left: Box<Proof>, right: Box<Proof> },
}

/// The steps of a branch from some point on. Lines keep the numbers that they had in the search, also when
/// steps between them were dropped.
#[derive(Debug)]
pub struct Proof {
    moves: Vec<Move>,
    end: End,
    /// The lines that the steps use.
    needs: BTreeSet<u16>,
}

impl Proof {
    pub fn clash(step: Step) -> Proof {
        Proof { moves: Vec::new(), end: End::Clash(step), needs: BTreeSet::from([step.p, step.q]) }
    }

    /// Both sides of a fork, whose line is numbered `at` on either side.
    pub fn fork(step: Step, at: u16, left: Proof, right: Proof) -> Proof {
        let mut needs = &left.needs | &right.needs;
        needs.extend([step.p, step.q]);
        Proof {
            moves: Vec::new(),
            end: End::Fork { step, at, left: left.into(), right: right.into() },
            needs,
        }
    }

    pub fn needs(&self, line: u16) -> bool {
        self.needs.contains(&line)
    }

    /// The proof with the steps before it, of which one that isn't needed stays if `keeps` says so.
    pub fn preceded_by(mut self, moves: Vec<Move>, mut keeps: impl FnMut() -> bool) -> Proof {
        let mut before: Vec<Move> = Vec::new();
        for taken in moves.into_iter().rev() {
            if self.needs.range(taken.at..taken.at + taken.lines).next().is_some() || keeps() {
                self.needs.extend([taken.step.p, taken.step.q]);
                before.push(taken);
            }
        }
        before.reverse();
        before.append(&mut self.moves);
        Proof { moves: before, ..self }
    }

    /// The steps of a tableau file, or `None` if they don't fit one.
    pub fn steps(&self) -> Option<Vec<Step>> {
        let mut file = File { numbers: vec![0], waiting: 0, steps: Vec::new() };
        file.write(self, 1)?;
        Some(file.steps)
    }
}

/// Steps as they are written, and the number in the file of each line of the branch that was searched.
struct File {
    numbers: Vec<u16>,
    /// How many right sides wait for their left sides.
    waiting: usize,
    steps: Vec<Step>,
}

impl File {
    /// Writes the steps of a branch that has so many lines; left sides come before right sides.
    fn write(&mut self, proof: &Proof, mut lines: u16) -> Option<()> {
        for taken in &proof.moves {
            self.step(taken.step)?;
            for line in taken.at..taken.at + taken.lines {
                lines = self.line(line, lines)?;
            }
        }
        match &proof.end {
            End::Clash(step) => self.step(*step),
            End::Fork { step, at, left, right } => {
                self.step(*step)?;
                let lines = self.line(*at, lines)?;
                self.wait()?;
                self.write(left, lines)?;
                self.waiting -= 1;
                self.line(*at, lines - 1)?;
                self.write(right, lines)
            }
        }
    }

    /// One more right side waits.
    fn wait(&mut self) -> Option<()> {
        self.waiting += 1;
        (self.waiting <= MAX_WAITING).then_some(())
    }

    /// The step with the file's line numbers; a Q that isn't used is 0 and stays so, like line 0.
    fn step(&mut self, step: Step) -> Option<()> {
        let number = |line: u16| self.numbers[line as usize];
        self.steps.push(Step { p: number(step.p), q: number(step.q), ..step });
        (self.steps.len() <= MAX_STEPS).then_some(())
    }

    /// Numbers one more line; answers how many there are.
    fn line(&mut self, line: u16, lines: u16) -> Option<u16> {
        let line = usize::from(line);
        if line >= self.numbers.len() {
            self.numbers.resize(line + 1, 0);
        }
        self.numbers[line] = lines;
        (usize::from(lines) < MAX_LINES).then_some(lines + 1)
    }
}

#[cfg(test)]
mod tests {
    use super::*;

    fn step(rule: u8, p: u16, q: u16) -> Step {
        Step { rule, p, q, argument: 0 }
    }

    fn one_line(rule: u8, p: u16, at: u16) -> Move {
        Move { step: step(rule, p, 0), at, lines: 1 }
    }

    #[test]
    fn unneeded_steps_are_dropped_and_lines_renumbered() {
        let moves = || vec![one_line(1, 0, 1), one_line(4, 0, 2), one_line(7, 1, 3), one_line(1, 2, 4)];
        let clash = || Proof::clash(step(21, 2, 4));
        let kept = vec![step(4, 0, 0), step(1, 1, 0), step(21, 1, 2)];
        assert_eq!(clash().preceded_by(moves(), || false).steps(), Some(kept));
        let all = vec![step(1, 0, 0), step(4, 0, 0), step(7, 1, 0), step(1, 2, 0), step(21, 2, 4)];
        assert_eq!(clash().preceded_by(moves(), || true).steps(), Some(all));
    }

    #[test]
    fn sides_number_their_lines_alike() {
        let side = |at: u16| Proof::clash(step(21, 5, at)).preceded_by(vec![one_line(1, 5, at)], || false);
        let fork = Proof::fork(step(3, 0, 0), 5, side(6), side(9));
        let side = [step(1, 1, 0), step(21, 1, 2)];
        assert_eq!(fork.steps(), Some([&[step(3, 0, 0)][..], &side, &side].concat()));
    }

    /// So many forks, each on the left side of the one before.
    fn nested(forks: u16) -> Proof {
        (1..=forks).rev().fold(Proof::clash(step(21, forks, 0)), |left, at| {
            Proof::fork(step(3, at - 1, 0), at, left, Proof::clash(step(21, at, 0)))
        })
    }

    #[test]
    fn no_more_right_sides_wait_than_may() {
        assert!(nested(MAX_WAITING as u16).steps().is_some());
        assert!(nested(MAX_WAITING as u16 + 1).steps().is_none());
    }

    /// Steps of one line each, so many from this number on, then a clash.
    fn row(first: u16, lines: u16) -> Proof {
        let moves = (first..first + lines).map(|at| one_line(1, at - 1, at)).collect();
        Proof::clash(step(21, 0, first + lines - 1)).preceded_by(moves, || false)
    }

    #[test]
    fn no_branch_has_more_lines_than_may() {
        assert!(row(1, MAX_LINES as u16 - 1).steps().is_some());
        assert!(row(1, MAX_LINES as u16).steps().is_none());
    }

    /// Four forks, each on the right side of the one before: five sides, their clashes, and their lines.
    #[test]
    fn no_tableau_has_more_steps_than_may() {
        let with_last_side = |lines: u16| {
            (1..=4).rev().fold(row(5, lines), |right, at| {
                Proof::fork(step(3, at - 1, 0), at, row(at + 1, 1000), right)
            })
        };
        let room = MAX_STEPS as u16 - 4 - 5 - 4 * 1000;
        assert!(with_last_side(room).steps().is_some_and(|steps| steps.len() == MAX_STEPS));
        assert!(with_last_side(room + 1).steps().is_none());
    }
}
