//! Finds the clash of a branch: rules 21 to 23, with the steps of rules 8, 17, 18 and 20 that lead up to it.

use super::branch::Branch;
use super::shape::{exchanged, is_plain, value_line};
use super::values::{Difference, Link};
use crate::random::Random;
use crate::tableau::line::Line;
use crate::tableau::rules::Step;

impl Branch<'_> {
    /// The step that ends the branch, if its lines can't all be true in a way that shows.
    pub fn clash(&mut self, random: &mut Random) -> Option<Step> {
        while self.checked < self.lines.len() {
            let number = self.checked as u16;
            self.checked += 1;
            if let Some(step) = self.denial(number) {
                return Some(step);
            }
        }
        self.values.contradiction().map(|difference| self.refute(difference, random))
    }

    /// A clash of the line with itself or with one that is alike but for sign.
    fn denial(&mut self, number: u16) -> Option<Step> {
        let itself = Step { rule: 23, p: number, q: 0, argument: 0 };
        if self.conclusion(itself).is_some() {
            return Some(itself);
        }
        let line = self.lines[number as usize];
        if self.setting.habits.thorough && !is_plain(self.setting.pattern, line) {
            return None;
        }
        let denied = line.denied()?;
        if let Some(q) = self.number_of(denied) {
            return Some(Step { rule: 21, p: number, q, argument: 0 });
        }
        let q = self.number_of(exchanged(denied)?)?;
        let p = self.reach(Step { rule: 8, p: number, q: 0, argument: 0 });
        Some(Step { rule: 21, p, q, argument: 0 })
    }

    /// Two names differ that have the same value: shown by rule 22, or by a name that differs from itself.
    fn refute(&mut self, difference: Difference, random: &mut Random) -> Step {
        let Difference { channel, left, right, line } = difference;
        if left == right {
            return Step { rule: 23, p: line, q: 0, argument: 0 };
        }
        if random.once_in(2) {
            let p = self.same(channel, left, right);
            return Step { rule: 22, p, q: line, argument: 0 };
        }
        let back = self.same(channel, right, left);
        let p = self.reach(Step { rule: 20, p: back, q: line, argument: 0 });
        Step { rule: 23, p, q: 0, argument: 0 }
    }

    /// The number of the line that the values of two linked names are the same, reached by rule 20.
    fn same(&mut self, channel: u8, from: u8, to: u8) -> u16 {
        let mut links = self.values.chain(channel, from, to).into_iter();
        let first = links.next().expect("two names");
        let start = self.hop(channel, first);
        links.fold(start, |p, link| {
            let q = self.hop(channel, link);
            self.reach(Step { rule: 20, p, q, argument: 0 })
        })
    }

    /// The number of the line "(from, end) same (to, end)" for a link, turned round by 8 or 17 if need be.
    fn hop(&mut self, channel: u8, link: Link) -> u16 {
        let turned = |rule| Step { rule, p: link.line, q: 0, argument: 0 };
        match self.lines[link.line as usize] {
            Line::Is { first, .. } => {
                let p = if first == link.from { link.line } else { self.reach(turned(17)) };
                self.reach(Step { rule: 18, p, q: 0, argument: channel })
            }
            line if value_line(line).is_some_and(|value| value.left == link.from) => link.line,
            _ => self.reach(turned(8)),
        }
    }
}
