//! Rules 1 to 20, 24 and 25: the new lines that a rule concludes from its premises; rules 21 to 23: whether they clash.
//! `None` and false where lines or argument don't fit.

use super::line::{COMPARE, DIFFERENT, HAS, IS, Line, NEGATIVE};
use super::pattern::{AFTER, DIFFER, END, Entry, FORK, JUMP, NAME, NOT, SAME, STEP, TEST};

pub const LACKS: u8 = HAS | NEGATIVE;
pub const BARRED: u8 = COMPARE | NEGATIVE;

/// What a rule looks at.
pub struct Premises<'a> {
    pub entries: &'a [Entry],
    pub p: Line,
    pub q: Line,
    pub argument: u8,
}

impl Premises<'_> {
    fn entry(&self, number: u8, kind: u8) -> Option<Entry> {
        self.entries.get(number as usize).copied().filter(|entry| entry[0] == kind)
    }

    /// P's entry, if P has this form and the entry this kind.
    fn noted(&self, form: u8, kind: u8) -> Option<Entry> {
        if self.p.form() == form { self.entry(self.p.subject(), kind) } else { None }
    }

    /// P's entry, if P has or lacks an entry of this kind.
    fn has_or_lacks(&self, kind: u8) -> Option<Entry> {
        self.noted(HAS | self.p.sign(), kind)
    }

    /// The entry of P's left path, if P is a comparison holding (barred) and the entry has this kind; the end
    /// of path is no entry.
    fn left(&self, form: u8, kind: u8) -> Option<Entry> {
        if self.p.form() & !DIFFERENT == form { self.entry(self.p.left_path(), kind) } else { None }
    }

    /// The argument as a name.
    fn new_name(&self) -> Option<u8> {
        (self.argument < 128).then_some(self.argument)
    }

    /// The name that Q leads to, if that axis leads there from P's first name.
    fn successor(&self, axis: u8) -> Option<u8> {
        let to = self.q.second();
        (self.q == Line::edge(axis, self.p.first(), to)).then_some(to)
    }

    /// Rule 1: P has/lacks not φ.
    pub fn not(&self) -> Option<Line> {
        let [_, x, _, _] = self.has_or_lacks(NOT)?;
        Some(self.p.turned(NEGATIVE).with_entry(x))
    }

    /// Rules 2, 3, 24 and 25: P has (lacks) both or either, as the kind says.
    pub fn parts(&self, form: u8, kind: u8) -> Option<(Line, Line)> {
        let [_, x, y, _] = self.noted(form, kind)?;
        Some((self.p.with_entry(x), self.p.with_entry(y)))
    }

    /// Rule 4: P has/lacks name j.
    pub fn name(&self) -> Option<Line> {
        let [_, x, _, _] = self.has_or_lacks(NAME)?;
        Some(Line::is(IS | self.p.sign(), self.p.first(), x))
    }

    /// Rule 5: P has after; the argument is a name, its freshness the walk's to check.
    pub fn after_holding(&self) -> Option<(Line, Line)> {
        let [_, x, y, _] = self.noted(HAS, AFTER)?;
        let name = self.new_name()?;
        Some((Line::edge(x, self.p.first(), name), Line::has(HAS, name, y)))
    }

    /// Rule 6: P lacks after, and Q is a line of that axis.
    pub fn after_lacking(&self) -> Option<Line> {
        let [_, x, y, _] = self.noted(LACKS, AFTER)?;
        Some(Line::has(LACKS, self.successor(x)?, y))
    }

    /// Rule 7: P has/lacks same or differ.
    pub fn comparison(&self) -> Option<Line> {
        let same = self.has_or_lacks(SAME).map(|entry| (entry, COMPARE));
        let differ = || self.has_or_lacks(DIFFER).map(|entry| (entry, COMPARE | DIFFERENT));
        let ([_, x, y, z], form) = same.or_else(differ)?;
        let name = self.p.first();
        Some(Line::compare(form | self.p.sign(), x, (name, y), (name, z)))
    }

    /// Rule 8: P is a comparison.
    pub fn comparison_exchanged(&self) -> Option<Line> {
        (self.p.form() & COMPARE != 0).then_some(self.p.exchanged())
    }

    /// Rule 9: the left path is a jump.
    pub fn jump(&self) -> Option<Line> {
        let [_, x, y, _] = self.left(COMPARE | self.p.sign(), JUMP)?;
        Some(self.p.with_first(x).with_left_path(y))
    }

    /// Rules 10 and 11: held (barred), the left path is a test.
    pub fn test(&self, form: u8) -> Option<(Line, Line)> {
        let [_, x, y, _] = self.left(form, TEST)?;
        Some((Line::has(HAS | self.p.sign(), self.p.first(), x), self.p.with_left_path(y)))
    }

    /// Rules 12 and 13: held (barred), the left path is a fork.
    pub fn fork(&self, form: u8) -> Option<(Line, Line)> {
        let [_, x, y, _] = self.left(form, FORK)?;
        Some((self.p.with_left_path(x), self.p.with_left_path(y)))
    }

    /// Rule 14: held, the left path is a step; the argument as in rule 5.
    pub fn step_holding(&self) -> Option<(Line, Line)> {
        let [_, x, y, _] = self.left(COMPARE, STEP)?;
        let name = self.new_name()?;
        Some((Line::edge(x, self.p.first(), name), self.p.with_first(name).with_left_path(y)))
    }

    /// Rule 15: barred, the left path is a step, and Q is a line of that axis.
    pub fn step_barred(&self) -> Option<Line> {
        let [_, x, y, _] = self.left(BARRED, STEP)?;
        Some(self.p.with_first(self.successor(x)?).with_left_path(y))
    }

    /// Rule 16: barred, both paths at end.
    pub fn end_barred(&self) -> Option<Line> {
        let barred = self.p.form() & !DIFFERENT == BARRED;
        (barred && self.p.at_ends()).then_some(self.p.turned(NEGATIVE | DIFFERENT))
    }

    /// Whether P is "i is j".
    fn equals(&self) -> bool {
        self.p.form() == IS
    }

    /// Rule 17: j is i.
    pub fn names_exchanged(&self) -> Option<Line> {
        self.equals().then_some(self.p.exchanged())
    }

    /// Rule 18: the argument is a channel.
    pub fn values_of_equals(&self) -> Option<Line> {
        let (left, right) = ((self.p.first(), END), (self.p.second(), END));
        (self.equals() && self.argument < 4).then_some(Line::compare(COMPARE, self.argument, left, right))
    }

    /// Rule 19: Q with i at the argument's place replaced by j.
    pub fn replaced(&self) -> Option<Line> {
        let (old, new) = (self.p.first(), self.p.second());
        let one_name = self.q.form() & !NEGATIVE == HAS;
        match self.argument {
            _ if !self.equals() => None,
            0 if self.q.first() == old => Some(self.q.with_first(new)),
            1 if self.q.second() == old && !one_name => Some(self.q.with_second(new)),
            _ => None,
        }
    }

    /// Rule 20: P same, and Q same or differ, at ends.
    pub fn chained(&self) -> Option<Line> {
        let ends_held = |line: Line| line.form() & !DIFFERENT == COMPARE && line.at_ends();
        let fits = self.p.form() == COMPARE
            && self.p.at_ends()
            && ends_held(self.q)
            && self.p.subject() == self.q.subject()
            && self.p.second() == self.q.first();
        fits.then_some(self.q.with_first(self.p.first()))
    }

    /// Rule 21; an axis line has no sign to be alike but for.
    pub fn opposites(&self) -> bool {
        self.p.turned(NEGATIVE) == self.q
    }

    /// Rule 22.
    pub fn same_and_differ(&self) -> bool {
        self.p.form() == COMPARE && self.p.at_ends() && self.p.turned(DIFFERENT) == self.q
    }

    /// Rule 23.
    pub fn unlike_itself(&self) -> bool {
        let form = self.p.form();
        let unlike = form == IS | NEGATIVE || form == COMPARE | DIFFERENT && self.p.at_ends();
        unlike && self.p.first() == self.p.second()
    }
}
