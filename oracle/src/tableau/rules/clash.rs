//! Rules 21 to 23: the lines can't all be true.

use super::Premises;
use crate::pattern::Comparison;
use crate::tableau::line::Line;

/// Whether the lines fit the clash rule.
pub fn clashes(premises: Premises, rule: u8) -> bool {
    let Premises { p, q } = premises;
    match rule {
        21 => p.denied() == Some(q),
        22 => same_and_differ(p, q),
        23 => denies_itself(p),
        _ => false,
    }
}

/// Rule 22: "P same and Q differ hold, all else alike and both paths at end".
fn same_and_differ(p: Line, q: Line) -> bool {
    match p {
        Line::Compare {
            holds: true,
            comparison: Comparison::Same,
            channel,
            left: left @ (_, None),
            right: right @ (_, None),
        } => q == Line::Compare { holds: true, comparison: Comparison::Differ, channel, left, right },
        _ => false,
    }
}

/// Rule 23: "i is not i", or (i, end) differ (i, end) holds.
fn denies_itself(p: Line) -> bool {
    match p {
        Line::Is { holds: false, first, second } => first == second,
        Line::Compare {
            holds: true,
            comparison: Comparison::Differ,
            left: (left, None),
            right: (right, None),
            ..
        } => left == right,
        _ => false,
    }
}
