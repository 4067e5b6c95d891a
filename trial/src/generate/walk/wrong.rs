//! Steps that are mostly refused, each for a reason of its own.

use super::forms::{Premise, in_common, resembles};
use super::{TRIES, Walker};
use crate::generate::mutate::BORDERS;
use oracle::pattern::Comparison;
use oracle::random::Random;
use oracle::tableau::line::Line;
use oracle::tableau::rules::{self, Step};

impl Walker<'_> {
    /// Adds a step that mostly is refused: a fitting one with one thing made wrong, or lines that almost
    /// fit a rule.
    pub fn add_wrong(&mut self, random: &mut Random) {
        let mut step = self.fitting(random).unwrap_or(Step { rule: 1, p: 0, q: 0, argument: 0 });
        let lines = self.walk.branch().len();
        match random.below(20) {
            0 => step.rule = random.pick(&[0, rules::LAST_RULE + 1, rules::LAST_RULE + 2, 32, 33, 255]),
            1 => step.p = random.pick(&[lines, lines + 1, 1023, 1024, 65535, lines | 256]) as u16,
            2 => step.q = random.pick(&[1, lines - 1, lines, 1024, 65535, 256]) as u16,
            3 | 9 => step = self.border_argument(random).unwrap_or(step),
            4 | 5 => step = self.stale(random).unwrap_or(step),
            6 => step.rule = random.between(1, rules::LAST_RULE.into()) as u8,
            7 => step.p = random.below(lines) as u16,
            8 => {
                step = self.clash(random).unwrap_or(step);
                std::mem::swap(&mut step.p, &mut step.q);
            }
            10..12 | 17..20 => step = self.other_axis(random).unwrap_or(step),
            12 => step = self.two_differs().unwrap_or(step),
            13 => step.argument = random.pick(&[1, 2, 127, 128, 255]),
            _ => step = self.almost(random).unwrap_or(step),
        }
        self.tableau.steps.push(step);
    }

    /// A step with lines of about the forms that its rule wants: of a few pairs, the one whose lines
    /// have the most in common.
    fn almost(&self, random: &mut Random) -> Option<Step> {
        let rule = random.pick(&[6, 6, 15, 15, 16, 17, 18, 19, 20, 20, 21, 22, 22, 23]);
        let argument = if rule == 19 { random.below(2) as u8 } else { 0 };
        let pairs = (0..TRIES).filter_map(|_| {
            let p = self.line_of(random, |line| resembles(self.pattern, rule, Premise::P, line))?;
            let q = self.line_of(random, |line| resembles(self.pattern, rule, Premise::Q, line))?;
            Some(Step { rule, p, q, argument })
        });
        let line = |number: u16| &self.walk.branch()[number as usize];
        let best =
            pairs.filter(|step| step.p != step.q).max_by_key(|step| in_common(line(step.p), line(step.q)));
        best.map(|step| if rules::uses_q(rule) { step } else { Step { q: 0, ..step } })
    }

    /// The first step of rule 6 that fits but for the axis, or of rule 15, if the branch has lines for one.
    fn other_axis(&self, random: &mut Random) -> Option<Step> {
        let [one, other] = random.pick(&[[6, 15], [6, 15], [15, 6]]);
        self.other_axis_of(one).or_else(|| self.other_axis_of(other))
    }

    fn other_axis_of(&self, rule: u8) -> Option<Step> {
        let branch = self.walk.branch();
        let fits_otherwise = |p: &Line, q: &Line| match (p, q) {
            (Line::Has { name, .. }, Line::Edge { from, .. })
            | (Line::Compare { left: (name, _), .. }, Line::Edge { from, .. }) => {
                name == from && resembles(self.pattern, rule, Premise::P, p)
            }
            _ => false,
        };
        let pairs = (0..branch.len()).flat_map(|p| (0..branch.len()).map(move |q| (p, q)));
        let fitting = pairs.filter(|&(p, q)| fits_otherwise(&branch[p], &branch[q]));
        let mut steps = fitting.map(|(p, q)| Step { rule, p: p as u16, q: q as u16, argument: 0 });
        steps.find(|step| self.apply(step).is_none())
    }

    /// The first step of rule 20 that fits but for P, which is differ too, if the branch has lines for one.
    fn two_differs(&self) -> Option<Step> {
        let differ = |(number, line): (usize, &Line)| match *line {
            Line::Compare { holds: true, comparison: Comparison::Differ, channel, left, right } => {
                left.1.or(right.1).is_none().then_some((number as u16, channel, left.0, right.0))
            }
            _ => None,
        };
        let differs: Vec<_> = self.walk.branch().iter().enumerate().filter_map(differ).collect();
        differs.iter().find_map(|&(p, channel, _, middle)| {
            let next = differs.iter().find(|q| (q.1, q.2) == (channel, middle))?;
            Some(Step { rule: 20, p, q: next.0, argument: 0 })
        })
    }

    /// The number of a random line of the branch that is wanted.
    fn line_of(&self, random: &mut Random, wanted: impl Fn(&Line) -> bool) -> Option<u16> {
        let branch = self.walk.branch();
        (0..2 * TRIES)
            .map(|_| random.below(branch.len()))
            .find(|&line| wanted(&branch[line]))
            .map(|line| line as u16)
    }

    /// A step whose argument is at the end of its range or over it: a name, a channel or a place.
    fn border_argument(&self, random: &mut Random) -> Option<Step> {
        let (wanted, arguments): (fn(u8) -> bool, _) = match random.below(3) {
            0 => (rules::brings_name, [127, 128, 255]),
            1 => (|rule| rule == 18, [3, 4, 255]),
            _ => (|rule| rule == 19, [1, 2, 255]),
        };
        let step = self.guess_of(random, wanted)?;
        Some(Step { argument: random.pick(&arguments), ..step })
    }

    /// A step of rule 5 or 14 that fits but for its name, which the branch has or the pattern uses.
    fn stale(&self, random: &mut Random) -> Option<Step> {
        let step = self.guess_of(random, rules::brings_name)?;
        let (line, used) = (self.walk.branch()[self.line(random)], random.once_in(4));
        let stale = |&name: &u8| if used { self.pattern.uses(name) } else { line.has_name(name) };
        (0..128).find(stale).map(|argument| Step { argument, ..step })
    }

    /// A guess with a rule that is wanted.
    fn guess_of(&self, random: &mut Random, wanted: fn(u8) -> bool) -> Option<Step> {
        (0..4 * TRIES).find_map(|_| self.guess(random).filter(|step| wanted(step.rule)))
    }

    /// Adds a step of random bytes, which hardly ever fits.
    pub fn add_random(&mut self, random: &mut Random) {
        let rule = random.below(rules::LAST_RULE as usize + 2) as u8;
        let (p, q) = (random.below(40) as u16, random.below(40) as u16);
        self.tableau.steps.push(Step { rule, p, q, argument: random.pick(&BORDERS) });
    }
}
