//! The walk along the branches of a tableau, one step after the other: closed, or refusals 19 to 26.

use super::line::{COMPARE, HAS, Line};
use super::pattern::{BOTH, EITHER, Entry};
use super::rules::{BARRED, LACKS, Premises};
use oracle::finding::{Finding, Refusal};

const LAST_RULE: u8 = 25;
const MOST_LINES: usize = 1024;
const MOST_WAITING: usize = 64;

/// A branch's lines, eight bytes each.
pub type Lines = [[u8; 8]; MOST_LINES];
/// A step as the file has it.
pub type Step = [u8; 6];

/// The branch at hand.
#[derive(Clone, Copy)]
struct Branch {
    count: usize,
    /// Names used in the pattern or on the branch. A fresh name alone adds to them: other new lines have
    /// their names from earlier lines or from the pattern.
    names: u128,
}

/// A right side whose left side is being checked: the branch before the fork, and the new line.
#[derive(Clone, Copy)]
struct Side {
    branch: Branch,
    line: Line,
}

struct Walk<'a> {
    lines: &'a mut Lines,
    branch: Branch,
    waiting: &'a mut [Side; MOST_WAITING],
    waiting_count: usize,
    open: bool,
    /// Every fork makes one branch two and every clash ends one, so a closed tableau has one clash more.
    forks: u16,
    most: usize,
}

pub fn walk(
    entries: &[Entry],
    steps: &[Step],
    lines: &mut Lines,
    start: u8,
    used: u128,
) -> Result<Finding, Refusal> {
    let none = Side { branch: Branch { count: 0, names: 0 }, line: Line::unpack([0; 8]) };
    let waiting = &mut [none; MOST_WAITING];
    lines[0] = Line::has(HAS, start, entries.len() as u8 - 1).pack();
    let branch = Branch { count: 1, names: used | 1 << start };
    let mut walk = Walk { lines, branch, waiting, waiting_count: 0, open: true, forks: 0, most: 0 };
    for (place, &step) in steps.iter().enumerate() {
        let taken = if walk.open { walk.step(entries, step) } else { Err(25) };
        taken.map_err(|number| Refusal { number, place: place as u16 })?;
    }
    if walk.open {
        return Err(Refusal { number: 26, place: steps.len() as u16 });
    }
    let (clashes, most) = (walk.forks + 1, walk.most as u16);
    Ok(Finding::Closed { steps: steps.len() as u16, clashes, forks: walk.forks, most })
}

/// Refusal 21 where lines or argument don't fit.
fn fit<T>(conclusion: Option<T>) -> Result<T, u16> {
    conclusion.ok_or(21)
}

/// A step as a little-endian word.
const fn word([rule, p_low, p_high, q_low, q_high, argument]: Step) -> u64 {
    u64::from_le_bytes([rule, p_low, p_high, q_low, q_high, argument, 0, 0])
}

/// For each rule the fields of a step that it doesn't use.
const UNUSED: [u64; LAST_RULE as usize + 1] = {
    let (q, argument) = (word([0, 0, 0, 255, 255, 0]), word([0, 0, 0, 0, 0, 255]));
    let mut unused = [q | argument; LAST_RULE as usize + 1];
    (unused[5], unused[14], unused[18], unused[19]) = (q, q, q, 0);
    (unused[6], unused[15]) = (argument, argument);
    (unused[20], unused[21], unused[22]) = (argument, argument, argument);
    unused
};

impl Walk<'_> {
    #[inline(always)]
    fn step(&mut self, entries: &[Entry], step: Step) -> Result<(), u16> {
        let [rule, p_low, p_high, q_low, q_high, argument] = step;
        if !(1..=LAST_RULE).contains(&rule) {
            return Err(19);
        }
        let p = u16::from_le_bytes([p_low, p_high]) as usize;
        let q = u16::from_le_bytes([q_low, q_high]) as usize;
        let count = self.branch.count;
        if word(step) & UNUSED[rule as usize] != 0 || p >= count || q >= count {
            return Err(20);
        }
        let line = |number: usize| Line::unpack(self.lines[number % MOST_LINES]);
        self.conclude(rule, &Premises { entries, p: line(p), q: line(q), argument })
    }

    #[inline(always)]
    fn conclude(&mut self, rule: u8, premises: &Premises) -> Result<(), u16> {
        match rule {
            1 => self.one(premises.not()),
            2 => self.two(premises.parts(HAS, BOTH)),
            3 => self.fork(premises.parts(LACKS, BOTH)),
            4 => self.one(premises.name()),
            5 => self.two_with_name(premises.after_holding(), premises.argument),
            6 => self.one(premises.after_lacking()),
            7 => self.one(premises.comparison()),
            8 => self.one(premises.comparison_exchanged()),
            9 => self.one(premises.jump()),
            10 => self.two(premises.test(COMPARE)),
            11 => self.fork(premises.test(BARRED)),
            12 => self.fork(premises.fork(COMPARE)),
            13 => self.two(premises.fork(BARRED)),
            14 => self.two_with_name(premises.step_holding(), premises.argument),
            15 => self.one(premises.step_barred()),
            16 => self.one(premises.end_barred()),
            17 => self.one(premises.names_exchanged()),
            18 => self.one(premises.values_of_equals()),
            19 => self.one(premises.replaced()),
            20 => self.one(premises.chained()),
            21 => self.clash(premises.opposites()),
            22 => self.clash(premises.same_and_differ()),
            23 => self.clash(premises.unlike_itself()),
            24 => self.fork(premises.parts(HAS, EITHER)),
            _ => self.two(premises.parts(LACKS, EITHER)),
        }
    }

    #[inline(always)]
    fn one(&mut self, line: Option<Line>) -> Result<(), u16> {
        let line = fit(line)?;
        *self.lines.get_mut(self.branch.count).ok_or(23u16)? = line.pack();
        self.branch.count += 1;
        Ok(())
    }

    #[inline(always)]
    fn two(&mut self, lines: Option<(Line, Line)>) -> Result<(), u16> {
        let (first, second) = fit(lines)?;
        let free = self.lines.get_mut(self.branch.count..).unwrap_or_default();
        *free.first_chunk_mut().ok_or(23u16)? = [first.pack(), second.pack()];
        self.branch.count += 2;
        Ok(())
    }

    #[inline(always)]
    fn two_with_name(&mut self, lines: Option<(Line, Line)>, name: u8) -> Result<(), u16> {
        fit(lines)?;
        if self.branch.names >> name & 1 == 1 {
            return Err(22);
        }
        self.branch.names |= 1 << name;
        self.two(lines)
    }

    #[inline(always)]
    fn fork(&mut self, sides: Option<(Line, Line)>) -> Result<(), u16> {
        let (left, line) = fit(sides)?;
        let branch = self.branch;
        self.one(Some(left))?;
        *self.waiting.get_mut(self.waiting_count).ok_or(24u16)? = Side { branch, line };
        self.waiting_count += 1;
        self.forks += 1;
        Ok(())
    }

    /// Ends the branch and goes on with the right side that waits last.
    #[inline(always)]
    fn clash(&mut self, fits: bool) -> Result<(), u16> {
        if !fits {
            return Err(21);
        }
        self.most = self.most.max(self.branch.count);
        self.open = self.waiting_count > 0;
        if self.open {
            self.waiting_count -= 1;
            let side = self.waiting[self.waiting_count % MOST_WAITING];
            self.branch = side.branch;
            self.one(Some(side.line))?;
        }
        Ok(())
    }
}
