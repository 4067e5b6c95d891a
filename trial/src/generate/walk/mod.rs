//! Random tableaux that get far: steps that mostly fit, found by trying the rules themselves (`forms` says
//! which to try), and `wrong` ones.

mod forms;
mod wrong;

use forms::rules_for;
use oracle::pattern::Pattern;
use oracle::random::Random;
use oracle::tableau::Tableau;
use oracle::tableau::rules::{self, Conclusion, Step};
use oracle::tableau::walk::Walk;

/// A tableau in the making, with the walk along its branches so far.
pub struct Walker<'p> {
    pattern: &'p Pattern,
    walk: Walk<'p>,
    tableau: Tableau,
}

/// How many random steps are tried for one that fits.
const TRIES: usize = 16;

impl<'p> Walker<'p> {
    pub fn new(pattern: &'p Pattern, random: &mut Random) -> Walker<'p> {
        let start = start_name(pattern, random);
        let tableau = Tableau { start, steps: Vec::new() };
        Walker { pattern, walk: Walk::begin(pattern, start), tableau }
    }

    /// Takes up to so many fitting steps, fewer if every branch is closed or none is found.
    pub fn go(&mut self, steps: usize, random: &mut Random) {
        for _ in 0..steps {
            if !self.walk.is_open() {
                return;
            }
            let Some(step) = self.clash(random).or_else(|| self.fitting(random)) else { return };
            self.tableau.steps.push(step);
            if self.walk.take(&step).is_err() {
                return;
            }
        }
    }

    pub fn into_tableau(self) -> Tableau {
        self.tableau
    }

    /// A clash of one of the two newest lines with any line, if there is one: mostly looked for.
    fn clash(&self, random: &mut Random) -> Option<Step> {
        if random.once_in(16) {
            return None;
        }
        let lines = self.walk.branch().len();
        let newest = lines.saturating_sub(2)..lines;
        newest.rev().find_map(|new| (0..lines).find_map(|old| self.clash_of(new, old)))
    }

    /// The clash of two lines, if they clash.
    fn clash_of(&self, new: usize, old: usize) -> Option<Step> {
        [(21, new, old), (22, new, old), (22, old, new), (23, new, 0)]
            .map(|(rule, p, q)| Step { rule, p: p as u16, q: q as u16, argument: 0 })
            .into_iter()
            .find(|step| self.apply(step).is_some())
    }

    /// A random step that fits, mostly one that adds a line the branch doesn't have.
    fn fitting(&self, random: &mut Random) -> Option<Step> {
        (0..TRIES).find_map(|_| {
            let step = self.guess(random)?;
            let conclusion = self.apply(&step)?;
            (self.is_news(conclusion) || random.once_in(8)).then_some(step)
        })
    }

    fn apply(&self, step: &Step) -> Option<Conclusion> {
        rules::apply(self.pattern, self.walk.branch(), step).ok()
    }

    fn is_news(&self, conclusion: Conclusion) -> bool {
        let lacks = |line| !self.walk.branch().contains(&line);
        match conclusion {
            Conclusion::One(line) => lacks(line),
            Conclusion::Two(first, second) => lacks(first) || lacks(second),
            Conclusion::Fork(left, right) => lacks(left) && lacks(right),
            Conclusion::Clash => true,
        }
    }

    /// A step on a random line with a rule for lines of its form.
    fn guess(&self, random: &mut Random) -> Option<Step> {
        let p = self.line(random);
        let rules = rules_for(self.pattern, &self.walk.branch()[p]);
        if rules.is_empty() {
            return None;
        }
        let rule = random.pick(rules);
        let q = if rules::uses_q(rule) { self.line(random) } else { 0 };
        let argument = match rule {
            5 | 14 => self.fresh_name(),
            18 => random.below(4) as u8,
            19 => random.below(2) as u8,
            _ => 0,
        };
        Some(Step { rule, p: p as u16, q: q as u16, argument })
    }

    /// The number of a line of the branch, as often as not one of the last eight.
    fn line(&self, random: &mut Random) -> usize {
        let lines = self.walk.branch().len();
        let first = if random.once_in(2) { lines.saturating_sub(8) } else { 0 };
        random.between(first, lines - 1)
    }

    /// The lowest name that rules 5 and 14 take on this branch; 0, which they refuse, if none is left.
    /// On a right side it is often a name that the left side has.
    fn fresh_name(&self) -> u8 {
        let on_branch = |name| self.walk.branch().iter().any(|line| line.has_name(name));
        (0..128).find(|&name| !self.pattern.uses(name) && !on_branch(name)).unwrap_or(0)
    }
}

/// A name that the pattern doesn't use, now and then the highest; 0, which is refused, if there is none.
fn start_name(pattern: &Pattern, random: &mut Random) -> u8 {
    let mut names = (0..128).filter(|&name| !pattern.uses(name));
    if random.once_in(4) { names.next_back() } else { names.next() }.unwrap_or(0)
}
