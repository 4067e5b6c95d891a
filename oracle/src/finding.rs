//! What the operations of documents 01 and 02 answer.

use std::fmt;

/// A finding of any of the operations, or a refusal with its number and place.
#[derive(Clone, Copy, Debug, PartialEq, Eq)]
pub enum Finding {
    /// Reading a pattern: the number of its entries.
    Read {
        entries: u16,
    },
    /// Judging a model: the lowest node where the root holds, and the number of such nodes.
    Met {
        lowest: u16,
        number: u16,
    },
    /// Judging a model: the root holds nowhere.
    Unmet,
    /// Judging a tableau: the counts of steps, clashes and forks, and the most lines on a branch.
    Closed {
        steps: u16,
        clashes: u16,
        forks: u16,
        most: u16,
    },
    /// Putting a model in order, or typing a pattern: the length of the new file.
    Written {
        length: u16,
    },
    /// The bytes of working area that judging a model of a pattern wants.
    Area {
        bytes: usize,
    },
    Refused(Refusal),
}

#[derive(Clone, Copy, Debug, PartialEq, Eq)]
pub struct Refusal {
    pub number: u16,
    pub place: u16,
}

/// The line that the bench program or the typist prints (`read` with the count and `area` with the length, which neither
/// prints).
impl fmt::Display for Finding {
    fn fmt(&self, f: &mut fmt::Formatter<'_>) -> fmt::Result {
        match self {
            Finding::Read { entries } => write!(f, "read {entries}"),
            Finding::Met { lowest, number } => write!(f, "met {lowest} {number}"),
            Finding::Unmet => write!(f, "unmet"),
            Finding::Closed { steps, clashes, forks, most } => {
                write!(f, "closed {steps} {clashes} {forks} {most}")
            }
            Finding::Written { length } => write!(f, "written {length}"),
            Finding::Area { bytes } => write!(f, "area {bytes}"),
            Finding::Refused(Refusal { number, place }) => write!(f, "refused {number} {place}"),
        }
    }
}
