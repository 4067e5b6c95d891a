//! What a line gives to do: the steps that it puts on the agenda, and the names that it makes one.

use super::branch::Branch;
use super::shape::{compares_ends, exchanged, names, rule_for};
use crate::tableau::line::Line;
use crate::tableau::rules::Step;

impl Branch<'_> {
    /// Puts on the agenda what the line gives to do.
    pub fn consider(&mut self, number: u16) {
        let line = self.lines[number as usize];
        if let Some(step) = self.renaming(line) {
            return self.agenda.add(Step { q: number, ..step });
        }
        match line {
            Line::Is { holds: true, first, second } => self.unite(first, second, number),
            Line::Edge { .. } => {
                for p in 0..self.lines.len() as u16 {
                    self.pair(6, p, number);
                    self.pair(15, p, number);
                }
            }
            _ => match self.rule_for(line) {
                Some(rule @ (6 | 15)) => {
                    (0..self.lines.len() as u16).for_each(|q| self.pair(rule, number, q))
                }
                Some(rule) => self.agenda.add(Step { rule, p: number, q: 0, argument: 0 }),
                None => {}
            },
        }
    }

    /// Whether a step has to wait for lines with the names that are kept.
    pub fn is_outdated(&self, step: Step) -> bool {
        let wants = |number: u16| self.renaming(self.lines[number as usize]).is_some();
        wants(step.p) || matches!(step.rule, 6 | 15) && wants(step.q)
    }

    /// Puts rule 6 or 15 on the agenda, if the line and the axis line fit it.
    fn pair(&mut self, rule: u8, p: u16, q: u16) {
        let step = Step { rule, p, q, argument: 0 };
        if self.conclusion(step).is_some() {
            self.agenda.add(step);
        }
    }

    /// The rule that takes the line apart; rule 8 if the right side has a path and is to come first.
    fn rule_for(&self, line: Line) -> Option<u8> {
        let is_new_when_exchanged = || exchanged(line).is_some_and(|line| self.number_of(line).is_none());
        match line {
            Line::Compare { right: (_, Some(_)), .. }
                if self.setting.habits.right_first && is_new_when_exchanged() =>
            {
                Some(8)
            }
            _ => rule_for(self.setting.pattern, line),
        }
    }

    /// The step of rule 19, its Q still open, that brings the line nearer to the names that are kept.
    fn renaming(&self, line: Line) -> Option<Step> {
        let stays = match line {
            Line::Is { holds: true, first, second } => self.aliases.kept(first) == self.aliases.kept(second),
            _ => compares_ends(line) && !self.setting.habits.renames_ends,
        };
        if stays {
            return None;
        }
        (0..).zip(names(line)).find_map(|(argument, name)| {
            Some(Step { rule: 19, p: self.aliases.line_for(name?)?, q: 0, argument })
        })
    }

    /// The line says that two kept names are one node: one of them is replaced by the other from now on.
    fn unite(&mut self, first: u8, second: u8, number: u16) {
        if self.aliases.kept(first) == self.aliases.kept(second) {
            return;
        }
        if self.setting.prefers(first, second) {
            return self.agenda.add(Step { rule: 17, p: number, q: 0, argument: 0 });
        }
        self.aliases.add(first, second, number);
        for earlier in 0..self.lines.len() as u16 {
            let line = self.lines[earlier as usize];
            if line.has_name(first) && self.number_of(line) == Some(earlier) && self.renaming(line).is_some()
            {
                self.consider(earlier);
            }
        }
    }
}
