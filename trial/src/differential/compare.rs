//! One input, run by every implementation on the same bytes, and what they made of it compared.

use super::guarded::{Against, Guarded};
use super::implementation::{Implementation, Lent};
use crate::generate::area::LONGEST_AREA;
use crate::generate::input::{Input, Never};
use oracle::finding::Finding;
use std::fmt;
use std::panic::{AssertUnwindSafe, catch_unwind};

/// The longest pattern and the longest proposal that are lent.
const LONGEST_PATTERN: usize = 2 * 65_536;
const LONGEST_PROPOSAL: usize = 2 * 65_536;

/// The memory that is lent to the implementations, one after the other, and what the first one left in
/// the area.
pub struct Comparer {
    pattern: Guarded,
    proposal: Guarded,
    area: Guarded,
    expected: Vec<u8>,
}

/// What an implementation did otherwise than the first one, or than the documents allow.
#[derive(Clone, Debug, PartialEq, Eq)]
pub struct Difference {
    pub implementation: String,
    pub what: What,
}

#[derive(Clone, Debug, PartialEq, Eq)]
pub enum What {
    /// Another finding, place or count.
    Finding { expected: Finding, found: Finding },
    /// Another byte in the area or the destination, the first such one.
    Area { at: usize, before: u8, expected: u8, found: u8 },
    /// A pattern that was changed.
    Pattern,
    /// A proposal that was changed.
    Proposal,
    /// A panic instead of a finding.
    Panic,
    /// A finding that demand 3 rules out.
    Demand { found: Finding },
}

impl Comparer {
    pub fn new() -> Comparer {
        Comparer {
            pattern: Guarded::new(LONGEST_PATTERN),
            proposal: Guarded::new(LONGEST_PROPOSAL),
            area: Guarded::new(LONGEST_AREA),
            expected: Vec::with_capacity(LONGEST_AREA),
        }
    }

    /// The finding that all implementations agree on, with everything else that they leave behind; or
    /// the first difference from the first one.
    pub fn compare(
        &mut self,
        input: &Input,
        against: Against,
        implementations: &[Implementation],
    ) -> Result<Finding, Difference> {
        let mut agreed = None;
        for implementation in implementations {
            let found = self.run(input, against, implementation).and_then(|found| match agreed {
                None => {
                    self.expected.clear();
                    self.expected.extend(&*self.area.slice(input.area.length, against));
                    Ok(found)
                }
                Some(expected) if expected != found => Err(What::Finding { expected, found }),
                Some(_) => self.same_area(input, against).map(|()| found),
            });
            let difference = |what| Difference { implementation: implementation.name.to_string(), what };
            agreed = Some(found.map_err(difference)?);
        }
        Ok(agreed.expect("at least one implementation is compared"))
    }

    /// Runs one implementation: its finding, or what it may never do.
    pub fn run(
        &mut self,
        input: &Input,
        against: Against,
        implementation: &Implementation,
    ) -> Result<Finding, What> {
        let lent = Lent {
            pattern: self.pattern.copy(&input.pattern, against),
            proposal: self.proposal.copy(&input.proposal, against),
            area: self.area.copy(input.area.contents(), against),
        };
        let run = AssertUnwindSafe(|| (implementation.run)(input.operation, lent));
        let found = catch_unwind(run).map_err(|_| What::Panic)?;
        if *self.pattern.slice(input.pattern.len(), against) != input.pattern[..] {
            return Err(What::Pattern);
        }
        if *self.proposal.slice(input.proposal.len(), against) != input.proposal[..] {
            return Err(What::Proposal);
        }
        match (input.never, found) {
            (Some(Never::Met), Finding::Met { .. }) | (Some(Never::Closed), Finding::Closed { .. }) => {
                Err(What::Demand { found })
            }
            _ => Ok(found),
        }
    }

    /// Compares every byte of the area with what the first implementation left there.
    fn same_area(&mut self, input: &Input, against: Against) -> Result<(), What> {
        let area = self.area.slice(input.area.length, against);
        if *area == self.expected[..] {
            return Ok(());
        }
        let at = (0..area.len()).find(|&at| area[at] != self.expected[at]).expect("the areas differ");
        let before = input.area.contents()[at];
        Err(What::Area { at, before, expected: self.expected[at], found: area[at] })
    }
}

impl Default for Comparer {
    fn default() -> Comparer {
        Comparer::new()
    }
}

impl fmt::Display for Difference {
    fn fmt(&self, f: &mut fmt::Formatter<'_>) -> fmt::Result {
        write!(f, "{}: ", self.implementation)?;
        match self.what {
            What::Finding { expected, found } => write!(f, "found '{found}', expected '{expected}'"),
            What::Area { at, before, expected, found } => {
                write!(f, "area byte {at}, {before} before, is {found}, expected {expected}")
            }
            What::Pattern => write!(f, "changed the pattern"),
            What::Proposal => write!(f, "changed the proposal"),
            What::Panic => write!(f, "panicked"),
            What::Demand { found } => write!(f, "found '{found}' against demand 3"),
        }
    }
}
