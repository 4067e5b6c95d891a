//! A judge of tableaux that is right but for a fault that is planted in it.

use oracle::finding::{Finding, Refusal};
use oracle::pattern::{self, Comparison, Pattern};
use oracle::tableau::line::Line;
use oracle::tableau::rules::{self, Conclusion, Step};
use oracle::tableau::{self, Tableau};
use trial::differential::implementation::{Lent, run_oracle};
use trial::generate::input::Operation;

/// What is concluded of a step that should be refused, if anything is.
pub type Accepts = fn(&Pattern, &[Line], &Step) -> Option<Conclusion>;
/// What is made of the conclusion of a rule.
pub type Alters = fn(u8, Conclusion) -> Conclusion;

/// What it does otherwise than it should.
#[derive(Clone, Copy)]
pub struct Fault {
    /// What it concludes of a step that should be refused 21 or 22.
    pub accepts: Accepts,
    /// What it makes of a conclusion.
    pub alters: Alters,
    /// Whether the right side of a fork keeps the lines of the left one.
    pub keeps_left_lines: bool,
    /// Whether the first clash closes the tableau.
    pub closes_at_once: bool,
    /// Whether it takes the pattern to use a name.
    pub uses: fn(&Pattern, u8) -> bool,
    /// Whether it takes a branch to have a name.
    pub has: fn(&[Line], u8) -> bool,
    /// Whether it searches the lines of sides that have ended, too.
    pub searches_ended_sides: bool,
}

pub const NONE: Fault = Fault {
    accepts: |_, _, _| None,
    alters: |_, conclusion| conclusion,
    keeps_left_lines: false,
    closes_at_once: false,
    uses: Pattern::uses,
    has: |branch, name| branch.iter().any(|line| line.has_name(name)),
    searches_ended_sides: false,
};

/// Where it stands in a tableau.
struct Stand {
    branch: Vec<Line>,
    waiting: Vec<(usize, Line)>,
    /// The lines of sides that have ended.
    ended: Vec<Line>,
    open: bool,
    most: usize,
}

impl Fault {
    /// The faulty judge as an implementation: everything but the start name and the steps is left to the
    /// oracle.
    pub fn run(self, operation: Operation, lent: Lent) -> Finding {
        let (pattern, proposal) = (lent.pattern.to_vec(), lent.proposal.to_vec());
        match (operation, run_oracle(operation, lent)) {
            (Operation::Tableau, Finding::Refused(refusal)) if refusal.number < 18 => {
                Finding::Refused(refusal)
            }
            (Operation::Tableau, _) => self.judge(&pattern, &proposal),
            (_, finding) => finding,
        }
    }

    /// Refusal 18, and what is found of the steps.
    fn judge(self, pattern: &[u8], proposal: &[u8]) -> Finding {
        let pattern = pattern::parse(pattern).expect("it was read");
        let without_names = Pattern { entries: Vec::new() };
        match tableau::parse(&without_names, proposal) {
            Ok(tableau) if !(self.uses)(&pattern, tableau.start) => self.walk(&pattern, &tableau),
            _ => Finding::Refused(Refusal { number: 18, place: 0 }),
        }
    }

    fn walk(self, pattern: &Pattern, tableau: &Tableau) -> Finding {
        let root = Line::Has { holds: true, name: tableau.start, entry: pattern.entries.len() - 1 };
        let (waiting, ended) = (Vec::new(), Vec::new());
        let mut stand = Stand { branch: vec![root], waiting, ended, open: true, most: 0 };
        for (place, step) in tableau.steps.iter().enumerate() {
            if let Err(number) = self.take(pattern, &mut stand, step) {
                return Finding::Refused(Refusal { number, place: place as u16 });
            }
            if self.closes_at_once && rules::says_clash(step.rule) {
                stand.open = false;
                break;
            }
        }
        if stand.open {
            return Finding::Refused(Refusal { number: 26, place: tableau.steps.len() as u16 });
        }
        tableau::closed(&tableau.steps, stand.most)
    }

    fn take(self, pattern: &Pattern, stand: &mut Stand, step: &Step) -> Result<(), u16> {
        if !stand.open {
            return Err(25);
        }
        let fitting = rules::fit(pattern, &stand.branch, step);
        let stale = rules::brings_name(step.rule) && self.is_stale(pattern, stand, step.argument);
        let applied = if stale { fitting.and(Err(22)) } else { fitting };
        let conclusion = applied.or_else(|number| match number {
            21 | 22 => (self.accepts)(pattern, &stand.branch, step).ok_or(number),
            _ => Err(number),
        })?;
        let (first, second) = match (self.alters)(step.rule, conclusion) {
            Conclusion::One(line) => (line, None),
            Conclusion::Two(first, second) => (first, Some(second)),
            Conclusion::Fork(left, right) => {
                if stand.branch.len() < 1024 && stand.waiting.len() >= 64 {
                    return Err(24);
                }
                stand.waiting.push((stand.branch.len(), right));
                (left, None)
            }
            Conclusion::Clash => return self.leave(stand),
        };
        stand.branch.push(first);
        stand.branch.extend(second);
        if stand.branch.len() > 1024 { Err(23) } else { Ok(()) }
    }

    fn is_stale(self, pattern: &Pattern, stand: &Stand, name: u8) -> bool {
        (self.uses)(pattern, name)
            || (self.has)(&stand.branch, name)
            || self.searches_ended_sides && (self.has)(&stand.ended, name)
    }

    fn leave(self, stand: &mut Stand) -> Result<(), u16> {
        stand.most = stand.most.max(stand.branch.len());
        match stand.waiting.pop() {
            Some((lines, right)) => {
                stand.ended.extend(&stand.branch[lines..]);
                if !self.keeps_left_lines {
                    stand.branch.truncate(lines);
                }
                stand.branch.push(right);
            }
            None => stand.open = false,
        }
        Ok(())
    }
}

/// The lines P and Q of a step, if the branch has them.
pub fn premises(branch: &[Line], step: &Step) -> Option<(Line, Line)> {
    Some((*branch.get(step.p as usize)?, *branch.get(step.q as usize)?))
}

/// The conclusion of a step if its lines P and Q were these.
pub fn concluded(pattern: &Pattern, p: Line, q: Line, step: &Step) -> Option<Conclusion> {
    let q_used = u16::from(rules::uses_q(step.rule));
    rules::apply(pattern, &[p, q], &Step { p: 0, q: q_used, ..*step }).ok()
}

/// Rule 16 "while paths remain".
pub fn rule_16_while_paths_remain(_: &Pattern, branch: &[Line], step: &Step) -> Option<Conclusion> {
    match premises(branch, step)? {
        (Line::Compare { holds: false, comparison, channel, left, right }, _) if step.rule == 16 => {
            let comparison = comparison.other();
            Some(Conclusion::One(Line::Compare { holds: true, comparison, channel, left, right }))
        }
        _ => None,
    }
}

/// Rule 22 "while paths remain", all else being alike.
pub fn rule_22_while_paths_remain(_: &Pattern, branch: &[Line], step: &Step) -> Option<Conclusion> {
    let (p, q) = premises(branch, step)?;
    match p {
        Line::Compare { holds: true, comparison: Comparison::Same, channel, left, right }
            if step.rule == 22 =>
        {
            let comparison = Comparison::Differ;
            (q == Line::Compare { holds: true, comparison, channel, left, right })
                .then_some(Conclusion::Clash)
        }
        _ => None,
    }
}

/// "A name taken as fresh because the pattern lacks it, though the branch has it", in the rule (5 or 14).
pub fn stale_name<const RULE: u8>(pattern: &Pattern, branch: &[Line], step: &Step) -> Option<Conclusion> {
    let (p, _) = premises(branch, step)?;
    if step.rule != RULE { None } else { concluded(pattern, p, p, step) }
}

/// "Two differs chained."
pub fn two_differs(pattern: &Pattern, branch: &[Line], step: &Step) -> Option<Conclusion> {
    let (p, q) = premises(branch, step)?;
    match p {
        Line::Compare { holds, comparison: Comparison::Differ, channel, left, right } if step.rule == 20 => {
            let same = Line::Compare { holds, comparison: Comparison::Same, channel, left, right };
            concluded(pattern, same, q, step)
        }
        _ => None,
    }
}

/// "An axis ignored" in the rule (6 or 15).
pub fn any_axis<const RULE: u8>(pattern: &Pattern, branch: &[Line], step: &Step) -> Option<Conclusion> {
    match premises(branch, step)? {
        (p, Line::Edge { from, to, .. }) if step.rule == RULE => {
            (0..8).find_map(|axis| concluded(pattern, p, Line::Edge { axis, from, to }, step))
        }
        _ => None,
    }
}

/// Rule 21 for lines that are alike in sign too.
pub fn alike_with_sign(_: &Pattern, branch: &[Line], step: &Step) -> Option<Conclusion> {
    let (p, q) = premises(branch, step)?;
    (step.rule == 21 && p == q).then_some(Conclusion::Clash)
}

/// Rule 22 with P and Q exchanged.
pub fn exchanged(pattern: &Pattern, branch: &[Line], step: &Step) -> Option<Conclusion> {
    let (p, q) = premises(branch, step)?;
    if step.rule != 22 { None } else { concluded(pattern, q, p, step) }
}

/// Rule 19 for a name that doesn't stand at the place.
pub fn other_name(_: &Pattern, branch: &[Line], step: &Step) -> Option<Conclusion> {
    let (p, q) = premises(branch, step)?;
    let fits = step.rule == 19 && step.argument < 2 && matches!(p, Line::Is { holds: true, .. });
    fits.then_some(Conclusion::One(q))
}

/// "Rule 11 adding one side only."
pub fn one_side_of_rule_11(rule: u8, conclusion: Conclusion) -> Conclusion {
    match conclusion {
        Conclusion::Fork(left, _) if rule == 11 => Conclusion::One(left),
        conclusion => conclusion,
    }
}
