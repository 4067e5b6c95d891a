//! Tableaux at the limits: short files, step counts, lines on a branch, right sides that wait.
//!
//! They are mostly for one of two patterns, "p and q, and not both" and "p or q, and not either", whose tableaux can
//! grow at will: with six lines on the branch, a step may add one line or two, fork, or clash, at any time. For
//! another, "p after axis 0, and same over it", it can bring names by lines 1 (after) and 3 (the comparison).

use super::{cut_short, misjudge_length, spoil_header};
use crate::generate::mutate::{Sort, mutate};
use oracle::random::Random;
use oracle::tableau::Tableau;
use oracle::tableau::rules::Step;

/// A pattern whose tableau can grow at will.
struct Growing {
    pattern: &'static [u8],
    /// The steps that lead to the lines from which it grows.
    beginning: [Step; 3],
    one_line: Step,
    two_lines: Step,
    fork: Step,
    clash: Step,
}

/// The lines on the branch behind the beginning.
const LINES: usize = 6;

/// It begins with p and q; not both; p; q; lacks both.
const BOTH: Growing = Growing {
    pattern: b"PAT\x01\x00\x05\
        \x01\x00\x00\x00\
        \x01\x01\x00\x00\
        \x04\x00\x01\x00\
        \x03\x02\x00\x00\
        \x04\x02\x03\x00",
    beginning: [step(2, 0, 0), step(2, 1, 0), step(1, 2, 0)],
    one_line: step(1, 2, 0),
    two_lines: step(2, 1, 0),
    fork: step(3, 5, 0),
    clash: step(21, 1, 5),
};

/// It begins with p or q; not either; lacks either; lacks p; lacks q.
const EITHER: Growing = Growing {
    pattern: b"PAT\x01\x00\x05\
        \x01\x00\x00\x00\
        \x01\x01\x00\x00\
        \x0c\x00\x01\x00\
        \x03\x02\x00\x00\
        \x04\x02\x03\x00",
    beginning: [step(2, 0, 0), step(1, 2, 0), step(25, 3, 0)],
    one_line: step(1, 2, 0),
    two_lines: step(25, 3, 0),
    fork: step(24, 1, 0),
    clash: step(21, 1, 3),
};

const NAMING: &[u8] = b"PAT\x01\x00\x05\
    \x01\x00\x00\x00\
    \x05\x00\x00\x00\
    \x08\x00\xff\x00\
    \x06\x00\x02\xff\
    \x04\x01\x03\x00";

const fn step(rule: u8, p: u16, q: u16) -> Step {
    Step { rule, p, q, argument: 0 }
}

/// Writes a pattern, and a tableau file for it at a limit or one over: a large one, now and then
/// mutated, or the smallest one, spoiled; now and then one that brings names to a long branch.
pub fn tableau(random: &mut Random, pattern: &mut Vec<u8>, file: &mut Vec<u8>) {
    let growing = if random.once_in(2) { BOTH } else { EITHER };
    pattern.clear();
    if random.once_in(8) {
        pattern.extend(NAMING);
        *file = late_name(random).to_bytes();
        return;
    }
    pattern.extend(growing.pattern);
    if random.once_in(2) {
        let steps = match random.below(8) {
            0..3 => growing.most_lines(random),
            3..6 => growing.most_waiting(random),
            6 => growing.most_steps(random),
            _ => growing.to_the_right(random),
        };
        *file = Tableau { start: random.pick(&[0, 127]), steps }.to_bytes();
        if random.once_in(4) {
            mutate(random, Sort::Tableau, file);
        }
    } else {
        let start = random.pick(&[0, 0, 1, 126, 127, 127, 128, 255]);
        let steps = growing.beginning.into_iter().chain([growing.clash]).collect();
        *file = Tableau { start, steps }.to_bytes();
        spoil(random, file);
    }
}

/// Spoils the file of a small tableau.
fn spoil(random: &mut Random, file: &mut Vec<u8>) {
    match random.below(6) {
        0 => cut_short(random, file),
        1 => spoil_header(random, file),
        2 => {
            file[6..8].copy_from_slice(&[0, random.pick(&[0, 16])]);
            if random.once_in(2) {
                file.truncate(8);
            }
        }
        _ => misjudge_length(random, file),
    }
}

impl Growing {
    /// A branch of 1,022 to 1,024 lines, then a step of each sort, then clashes for what is open.
    fn most_lines(&self, random: &mut Random) -> Vec<Step> {
        let mut steps = self.beginning.to_vec();
        let wanted = random.pick(&[1022, 1023, 1023, 1024, 1024]);
        let mut lines = LINES;
        while lines < wanted {
            let two = lines + 2 <= wanted && random.once_in(2);
            steps.push(if two { self.two_lines } else { self.one_line });
            lines += if two { 2 } else { 1 };
        }
        let last = random.pick(&[self.one_line, self.two_lines, self.fork, self.clash]);
        if last != self.clash {
            steps.push(last);
        }
        let open = if last == self.fork { 2 } else { 1 };
        steps.extend([self.clash].repeat(open));
        steps
    }

    /// 63 to 66 forks in each other's left sides, sometimes on a branch that is full with the last of them or with the
    /// 64th, then a clash for every side.
    fn most_waiting(&self, random: &mut Random) -> Vec<Step> {
        let mut steps = self.beginning.to_vec();
        let forks = random.between(63, 66);
        if random.once_in(2) {
            let full = random.pick(&[1023, 1024, 1025, 960 + forks, 960 + forks]);
            let fill = full - LINES - forks;
            steps.extend([self.one_line].repeat(fill));
        }
        steps.extend([self.fork].repeat(forks));
        steps.extend([self.clash].repeat(forks + 1));
        steps
    }

    /// 4,095 to 4,097 steps of all sorts, closed with the last, or seldom one clash short or over.
    fn most_steps(&self, random: &mut Random) -> Vec<Step> {
        let wanted = random.between(4095, 4097);
        let mut steps = self.beginning.to_vec();
        let mut branches = 1;
        while steps.len() + branches < wanted {
            let room = wanted - steps.len() - branches;
            match random.below(3) {
                0 if branches < 60 && room >= 2 => {
                    branches += 1;
                    steps.push(self.fork);
                }
                1 if branches > 1 => {
                    branches -= 1;
                    steps.push(self.clash);
                }
                _ => steps.push(self.one_line),
            }
        }
        steps.extend([self.clash].repeat(branches));
        match random.below(16) {
            0 => steps.truncate(steps.len() - 1),
            1 => steps.push(self.clash),
            _ => {}
        }
        steps
    }

    /// Forks in each other's right sides, of which no more than one waits at a time, until the branch is
    /// full or one over.
    fn to_the_right(&self, random: &mut Random) -> Vec<Step> {
        let forks = random.between(1023, 1025) - LINES;
        let mut steps = self.beginning.to_vec();
        steps.extend([self.fork, self.clash].repeat(forks));
        steps.push(self.clash);
        steps
    }
}

/// A name brought to a branch of up to 1,020 lines; then, with up to 1,022 on it, the same name again, or the
/// start name, or one that is fresh.
fn late_name(random: &mut Random) -> Tableau {
    let [start, name] = [0; 2].map(|_| random.below(128) as u8);
    let both_parts = step(2, 0, 0);
    let before = random.between(0, 508);
    let behind = if random.once_in(2) { 0 } else { random.between(0, 508 - before) };
    let mut bring = |argument| Step { argument, ..random.pick(&[step(5, 1, 0), step(14, 3, 0)]) };
    let mut steps = vec![both_parts, step(7, 2, 0)];
    steps.extend([both_parts].repeat(before));
    steps.push(bring(name));
    steps.extend([both_parts].repeat(behind));
    steps.push(bring([name, name, start, name ^ 64][before % 4]));
    Tableau { start, steps }
}
