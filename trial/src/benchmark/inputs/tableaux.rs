//! Tableaux of two patterns in many shapes, and the cases of judging one.

use super::patterns::Entries;
use super::script::Script;
use super::typical;
use crate::benchmark::case::Case;
use oracle::pattern::{Comparison, Entry, Pattern};
use oracle::random::Random;
use oracle::tableau::Tableau;

const START: u8 = 0;
/// The first name that neither the pattern uses nor the branch begins with.
const FRESH: u8 = 5;

/// A pattern that lets its tableau have nearly any shape: p, and not both p and p, which closes every side of
/// a fork; a comparison and an `after` to make lines from. Entries that nothing reaches fill it up to the
/// count.
pub fn workshop(count: usize) -> Pattern {
    let mut entries = Entries::default();
    for number in 0..count.saturating_sub(9) {
        entries.add(Entry::Jump(1 + (number % 4) as u8, number.checked_sub(1)));
    }
    let p = entries.add(Entry::Property(0));
    let twice = entries.add(Entry::Both(p, p));
    furnished(entries, p, p, twice)
}

/// Another such pattern: either p or p, and not that.
pub fn workshop_of_either() -> Pattern {
    let mut entries = Entries::default();
    let p = entries.add(Entry::Property(0));
    let twice = entries.add(Entry::Either(p, p));
    furnished(entries, p, twice, twice)
}

/// The pattern that says one thing, and not another; and what lines are made from.
fn furnished(mut entries: Entries, p: usize, said: usize, denied: usize) -> Pattern {
    let never = entries.add(Entry::Not(denied));
    let after = entries.add(Entry::After(0, p));
    let step = entries.add(Entry::Step(0, None));
    let same = entries.add(Entry::Compare(Comparison::Same, 0, Some(step), None));
    let clashing = entries.add(Entry::Both(said, never));
    let going_on = entries.add(Entry::Both(after, same));
    entries.add(Entry::Both(clashing, going_on));
    entries.pattern()
}

/// A tableau of the workshop in the making; the lines that it begins with.
pub struct Work<'a> {
    script: Script<'a>,
    /// The rule and the line that fork: lacking both, or having either.
    fork: (u8, usize),
    /// The rule and the line that give two lines: the root, or lacking either.
    two: (u8, usize),
    /// The line that the new line of each side clashes with.
    p: usize,
    never: usize,
    after: usize,
    comparison: usize,
}

impl<'a> Work<'a> {
    fn new(pattern: &'a Pattern) -> Work<'a> {
        let mut script = Script::new(pattern, START);
        let parts = script.use_line(2, 0);
        let said = script.use_line(2, parts);
        let never = said + 1;
        let after = script.use_line(2, parts + 1);
        let lacks = script.use_line(1, never);
        let comparison = script.use_line(7, after + 1);
        let (fork, two, p) = if pattern.entries.iter().any(|entry| matches!(entry, Entry::Either(..))) {
            ((24, said), (25, lacks), script.use_line(25, lacks))
        } else {
            ((3, lacks), (2, 0), said)
        };
        Work { script, fork, two, p, never, after, comparison }
    }

    fn fork(&mut self) {
        self.script.use_line(self.fork.0, self.fork.1);
    }

    /// Ends a branch that has this line from a fork.
    fn clash(&mut self, side: usize) {
        self.script.step(21, self.p, side, 0);
    }

    /// A tree of so many forks, halved between the sides; each side that doesn't fork is worked on and
    /// clashes.
    fn tree(&mut self, forks: usize, leaf: &impl Fn(&mut Work)) {
        if forks == 0 {
            let side = self.script.last();
            leaf(self);
            return self.clash(side);
        }
        self.fork();
        let more = forks - 1;
        self.tree(more / 2, leaf);
        self.tree(more - more / 2, leaf);
    }

    /// A fork in the right side of a fork, so many times.
    fn nest_right(&mut self, times: usize) {
        for _ in 0..times {
            self.fork();
            self.clash(self.script.last());
        }
    }

    /// Exchanges the sides of the comparison so many times.
    fn exchange(&mut self, times: usize) {
        let mut line = self.comparison;
        for _ in 0..times {
            line = self.script.use_line(8, line);
        }
    }

    /// So many lines in no order: comparisons, and lines of has.
    fn mix(&mut self, times: usize) {
        let mut random = Random::new(1, 0);
        for _ in 0..times {
            let (rule, line) = random.pick(&[(8, self.comparison), (1, self.never)]);
            self.script.use_line(rule, line);
        }
    }

    /// Brings so many new names, by rule 5 or 14.
    fn name(&mut self, rule: u8, names: u8) {
        let premise = if rule == 5 { self.after } else { self.comparison };
        for name in FRESH..FRESH + names {
            self.script.step(rule, premise, 0, name);
        }
    }
}

/// Steps that a tableau of a workshop has before its first fork.
fn opening(pattern: &Pattern) -> usize {
    Work::new(pattern).script.steps()
}

/// A tableau of at most so many steps whose leaves have as many rounds of work as fit, so many steps a round.
fn leaves(
    pattern: &Pattern,
    steps: usize,
    count: usize,
    round: usize,
    work: impl Fn(&mut Work, usize),
) -> Tableau {
    let rounds = (steps - opening(pattern) - (2 * count - 1)) / count / round;
    let mut making = Work::new(pattern);
    making.tree(count - 1, &|leaf: &mut Work| work(leaf, rounds));
    making.script.tableau()
}

/// Rule 8 nearly all the way.
pub fn exchanges(pattern: &Pattern, steps: usize) -> Tableau {
    leaves(pattern, steps, 2 + steps / 1000, 1, |leaf, rounds| leaf.exchange(rounds))
}

/// Rule 1 and a rule that gives two lines, 2 or 25, in turn.
pub fn chains(pattern: &Pattern, steps: usize) -> Tableau {
    leaves(pattern, steps, 2 + steps / 600, 2, |leaf, rounds| {
        for _ in 0..rounds {
            leaf.script.use_line(leaf.two.0, leaf.two.1);
            leaf.script.use_line(1, leaf.never);
        }
    })
}

/// Nothing but forks and clashes.
pub fn forks(pattern: &Pattern, steps: usize) -> Tableau {
    leaves(pattern, steps, (steps - opening(pattern)).div_ceil(2), 1, |_, _| ())
}

/// A fork in the right side of a fork, so many times, and on the last right side a fork in the left side of a
/// fork, so many times; the innermost left side is worked on.
pub fn nested(pattern: &Pattern, right: usize, left: usize, innermost: impl Fn(&mut Work)) -> Tableau {
    let mut work = Work::new(pattern);
    work.nest_right(right);
    for _ in 0..left {
        work.fork();
    }
    let side = work.script.last();
    innermost(&mut work);
    work.clash(side);
    for _ in 0..left {
        work.clash(work.script.last());
    }
    work.script.tableau()
}

/// Fresh names on a long branch.
#[derive(Clone, Copy)]
pub struct Fresh {
    /// 5 or 14.
    pub rule: u8,
    /// Lines before the forks.
    pub lines: usize,
    /// Whether they are of two forms, in no order; otherwise they are exchanges.
    pub mixed: bool,
    pub leaves: usize,
    /// New names on each leaf.
    pub names: u8,
}

pub fn fresh(pattern: &Pattern, fresh: Fresh) -> Tableau {
    let mut work = Work::new(pattern);
    if fresh.mixed {
        work.mix(fresh.lines);
    } else {
        work.exchange(fresh.lines);
    }
    work.tree(fresh.leaves - 1, &|leaf: &mut Work| leaf.name(fresh.rule, fresh.names));
    work.script.tableau()
}

const MANY_LEAVES: Fresh = Fresh { rule: 5, lines: 400, mixed: false, leaves: 512, names: 3 };

/// The most searches for a name, on nearly the longest branches, that 4,096 steps allow.
const LONGEST_SEARCHES: Fresh = Fresh { rule: 5, lines: 900, mixed: false, leaves: 60, names: 51 };

/// The tableau with another last step, which doesn't fit.
fn spoiled(mut tableau: Tableau) -> Tableau {
    let last = tableau.steps.last_mut().expect("a tableau has a step");
    last.q = last.p;
    tableau
}

/// A case of a pattern and its tableau.
fn judged(name: &str, pattern: &Pattern, tableau: impl Fn(&Pattern) -> Tableau) -> Case {
    Case::tableau(name, pattern, &tableau(pattern))
}

pub fn cases() -> Vec<Case> {
    let (small, large, either) = (&workshop(9), &workshop(255), &workshop_of_either());
    let exchanges = |pattern: &Pattern| exchanges(pattern, 4096);
    let mut cases = vec![
        judged("typical, 60 steps", &typical::pattern(), typical::tableau),
        judged("exchanges", small, exchanges),
        judged("exchanges, last step refused", small, |pattern| spoiled(exchanges(pattern))),
        judged("exchanges, 255 entries", large, exchanges),
        judged("rules 1 and 2", small, |pattern| chains(pattern, 4096)),
        judged("forks and clashes", small, |pattern| forks(pattern, 4096)),
        judged("rules 1 and 25", either, |pattern| chains(pattern, 4096)),
        judged("forks of either and clashes", either, |pattern| forks(pattern, 4096)),
        judged("fresh names, 400 lines", small, |pattern| fresh(pattern, MANY_LEAVES)),
    ];
    cases.extend(deep_cases());
    cases
}

/// Cases with deeply nested forks or long branches.
pub fn deep_cases() -> Vec<Case> {
    let (small, large) = (&workshop(9), &workshop(255));
    let fourteen = Fresh { rule: 14, ..LONGEST_SEARCHES };
    let mixed = Fresh { mixed: true, ..LONGEST_SEARCHES };
    vec![
        judged("64 forks nested left", small, |pattern| nested(pattern, 0, 64, |_| ())),
        judged("64 forks of either nested left", &workshop_of_either(), |pattern| {
            nested(pattern, 0, 64, |_| ())
        }),
        judged("1,014 forks nested right", small, |pattern| nested(pattern, 1014, 0, |_| ())),
        judged("950 nested right, then 64 left", small, |pattern| nested(pattern, 950, 64, |_| ())),
        judged("63 nested left, then 950 right", small, |pattern| {
            nested(pattern, 0, 63, |work| work.nest_right(950))
        }),
        judged("64 nested left, then names", large, |pattern| {
            nested(pattern, 0, 64, |work| {
                work.exchange(100);
                work.name(14, 100);
            })
        }),
        judged("fresh names, 900 lines", small, |pattern| fresh(pattern, LONGEST_SEARCHES)),
        judged("fresh names, mixed lines", small, |pattern| fresh(pattern, mixed)),
        judged("fresh names, 255 entries", large, |pattern| fresh(pattern, LONGEST_SEARCHES)),
        judged("the same by rule 14", large, |pattern| fresh(pattern, fourteen)),
    ]
}
