//! The four forms of a line, and which names a line has.

use crate::pattern::{Comparison, Path};

/// One side of a comparison: (name, path).
pub type Side = (u8, Path);

#[derive(Clone, Copy, Debug, PartialEq, Eq, Hash)]
pub enum Line {
    /// `name` has (lacks, if `holds` is false) the node entry.
    Has { holds: bool, name: u8, entry: usize },
    /// `first` is (is not) `second`.
    Is { holds: bool, first: u8, second: u8 },
    /// The axis leads from a name to a name.
    Edge { axis: u8, from: u8, to: u8 },
    /// The comparison of the two sides holds (is barred).
    Compare { holds: bool, comparison: Comparison, channel: u8, left: Side, right: Side },
}

impl Line {
    /// Whether the name stands on the line. Names inside the pattern's entries don't count.
    pub fn has_name(&self, name: u8) -> bool {
        match *self {
            Line::Has { name: only, .. } => only == name,
            Line::Is { first, second, .. } => first == name || second == name,
            Line::Edge { from, to, .. } => from == name || to == name,
            Line::Compare { left, right, .. } => left.0 == name || right.0 == name,
        }
    }

    /// The same line with the other sign; an edge has no sign.
    pub fn denied(self) -> Option<Line> {
        match self {
            Line::Has { holds, name, entry } => Some(Line::Has { holds: !holds, name, entry }),
            Line::Is { holds, first, second } => Some(Line::Is { holds: !holds, first, second }),
            Line::Edge { .. } => None,
            Line::Compare { holds, comparison, channel, left, right } => {
                Some(Line::Compare { holds: !holds, comparison, channel, left, right })
            }
        }
    }

    /// Where the line leads by the axis from the name, if it says that it leads somewhere.
    pub fn led_to(&self, wanted: u8, start: u8) -> Option<u8> {
        match *self {
            Line::Edge { axis, from, to } if axis == wanted && from == start => Some(to),
            _ => None,
        }
    }
}
