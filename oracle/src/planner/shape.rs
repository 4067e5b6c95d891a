//! What the planner asks of a line by itself.

use crate::pattern::{Comparison, Entry, Pattern};
use crate::tableau::line::Line;

/// The names at places 0 (first or left) and 1 (second or right), as rule 19 counts them.
pub fn names(line: Line) -> [Option<u8>; 2] {
    match line {
        Line::Has { name, .. } => [Some(name), None],
        Line::Is { first, second, .. } => [Some(first), Some(second)],
        Line::Edge { from, to, .. } => [Some(from), Some(to)],
        Line::Compare { left, right, .. } => [Some(left.0), Some(right.0)],
    }
}

/// The line with another first or left name.
pub fn with_first_name(mut line: Line, other: u8) -> Line {
    match &mut line {
        Line::Has { name, .. } => *name = other,
        Line::Is { first, .. } => *first = other,
        Line::Edge { from, .. } => *from = other,
        Line::Compare { left, .. } => left.0 = other,
    }
    line
}

/// A comparison with its two sides exchanged, as by rule 8.
pub fn exchanged(line: Line) -> Option<Line> {
    match line {
        Line::Compare { holds, comparison, channel, left, right } => {
            Some(Line::Compare { holds, comparison, channel, left: right, right: left })
        }
        _ => None,
    }
}

/// What rule 1 makes of the line, applied as often as it fits.
pub fn without_nots(pattern: &Pattern, mut line: Line) -> Line {
    while let Line::Has { holds, entry, .. } = &mut line
        && let Entry::Not(phi) = pattern.entries[*entry]
    {
        (*holds, *entry) = (!*holds, phi);
    }
    line
}

/// Whether the line is a comparison with both paths at end.
pub fn compares_ends(line: Line) -> bool {
    matches!(line, Line::Compare { left: (_, None), right: (_, None), .. })
}

/// Whether no rule takes the line apart any further: a property, names, or a comparison of ends.
pub fn is_plain(pattern: &Pattern, line: Line) -> bool {
    match line {
        Line::Has { entry, .. } => matches!(pattern.entries[entry], Entry::Property(_)),
        Line::Is { .. } | Line::Edge { .. } => true,
        Line::Compare { .. } => compares_ends(line),
    }
}

/// The rule that takes the line apart, one of 1 to 16, 24 and 25; 6 and 15 also want an axis line.
pub fn rule_for(pattern: &Pattern, line: Line) -> Option<u8> {
    match line {
        Line::Has { holds, entry, .. } => rule_for_entry(pattern.entries[entry], holds),
        Line::Compare { holds, left, right, .. } => match left.1.map(|entry| pattern.entries[entry]) {
            Some(path) => rule_for_left_path(path, holds),
            None if right.1.is_some() => Some(8),
            None if holds => None,
            None => Some(16),
        },
        Line::Is { .. } | Line::Edge { .. } => None,
    }
}

/// The rule for a name that has (or lacks) a node entry: one of 1 to 7, 24 and 25.
fn rule_for_entry(entry: Entry, holds: bool) -> Option<u8> {
    Some(match entry {
        Entry::Not(_) => 1,
        Entry::Both(..) if holds => 2,
        Entry::Both(..) => 3,
        Entry::Name(_) => 4,
        Entry::After(..) if holds => 5,
        Entry::After(..) => 6,
        Entry::Compare(..) => 7,
        Entry::Either(..) if holds => 24,
        Entry::Either(..) => 25,
        _ => return None,
    })
}

/// The rule from 9 to 15 for a comparison that holds (or is barred) with this left path.
fn rule_for_left_path(path: Entry, holds: bool) -> Option<u8> {
    Some(match path {
        Entry::Jump(..) => 9,
        Entry::Test(..) if holds => 10,
        Entry::Test(..) => 11,
        Entry::Fork(..) if holds => 12,
        Entry::Fork(..) => 13,
        Entry::Step(..) if holds => 14,
        Entry::Step(..) => 15,
        _ => return None,
    })
}

/// What a held comparison of ends says.
#[derive(Clone, Copy, Debug)]
pub struct ValueLine {
    pub comparison: Comparison,
    pub channel: u8,
    pub left: u8,
    pub right: u8,
}

/// The line as a held comparison of ends, if it is one.
pub fn value_line(line: Line) -> Option<ValueLine> {
    match line {
        Line::Compare { holds: true, comparison, channel, left: (left, None), right: (right, None) } => {
            Some(ValueLine { comparison, channel, left, right })
        }
        _ => None,
    }
}
