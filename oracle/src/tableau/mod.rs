//! Judging a tableau: `file` reads it, `line` and `rules` say what a step concludes, `walk` goes along the
//! branches, and this file gives the finding.

mod file;
pub mod line;
pub mod rules;
pub mod walk;

pub use file::{HEADER_BYTES, LONGEST, MAX_STEPS, STEP_BYTES, is_marked, parse};

use crate::finding::{Finding, Refusal};
use crate::pattern::{self, Pattern};
use rules::Step;
use walk::Walk;

/// The working area that judging a tableau wants, in bytes.
pub const AREA: usize = 8192;

/// A tableau file: the start name and the steps.
#[derive(Clone, Debug, PartialEq, Eq)]
pub struct Tableau {
    pub start: u8,
    pub steps: Vec<Step>,
}

/// Judging a tableau as document 01 and Job 6 state it, with what it does to the working area.
pub fn judge(pattern: &[u8], tableau: &[u8], area: &mut [u8]) -> Finding {
    match admit(pattern, tableau, area.len()) {
        Ok((pattern, tableau)) => {
            area[..AREA].fill(0);
            finding(&pattern, &tableau)
        }
        Err(refusal) => Finding::Refused(refusal),
    }
}

/// Refusals 1 to 9 and 15 to 18 in their order: the pattern, the area, the tableau.
fn admit(pattern: &[u8], tableau: &[u8], area: usize) -> Result<(Pattern, Tableau), Refusal> {
    let pattern = pattern::parse(pattern)?;
    if area < AREA {
        return Err(Refusal { number: 9, place: 0 });
    }
    let tableau = parse(&pattern, tableau)?;
    Ok((pattern, tableau))
}

/// Closed with its counts, or refusals 19 to 26.
pub fn finding(pattern: &Pattern, tableau: &Tableau) -> Finding {
    let mut walk = Walk::begin(pattern, tableau.start);
    for (place, step) in tableau.steps.iter().enumerate() {
        if let Err(number) = walk.take(step) {
            return Finding::Refused(Refusal { number, place: place as u16 });
        }
    }
    if walk.is_open() {
        return Finding::Refused(Refusal { number: 26, place: tableau.steps.len() as u16 });
    }
    closed(&tableau.steps, walk.most_lines())
}

/// Closed by these steps, with the most lines that a branch had at its clash: "clashes is the number of
/// steps whose rule says clash, forks of those whose rule forks the branch in two".
pub fn closed(steps: &[Step], most: usize) -> Finding {
    let count = |says: fn(u8) -> bool| steps.iter().filter(|step| says(step.rule)).count() as u16;
    Finding::Closed {
        steps: steps.len() as u16,
        clashes: count(rules::says_clash),
        forks: count(rules::says_fork),
        most: most as u16,
    }
}
