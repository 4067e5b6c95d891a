//! Rules 17 to 20: one name in place of another, and data that are the same.

use super::Conclusion::{self, One};
use super::{Premises, Step};
use crate::pattern::{Comparison, MAX_CHANNEL};
use crate::tableau::line::Line;

/// The conclusion of a rule from 17 to 20, or `None` if the lines or the argument don't fit.
pub fn conclude(premises: Premises, step: &Step) -> Option<Conclusion> {
    if step.rule == 20 {
        return chained(premises.p, premises.q).map(One);
    }
    let Line::Is { holds: true, first: i, second: j } = premises.p else { return None };
    let line = match step.rule {
        17 => Line::Is { holds: true, first: j, second: i },
        18 if step.argument <= MAX_CHANNEL => ends_compare(Comparison::Same, step.argument, i, j),
        19 => replaced(premises.q, step.argument, i, j)?,
        _ => return None,
    };
    Some(One(line))
}

/// (i, end) and (j, end) compare so: the comparison holds.
fn ends_compare(comparison: Comparison, channel: u8, i: u8, j: u8) -> Line {
    Line::Compare { holds: true, comparison, channel, left: (i, None), right: (j, None) }
}

/// Rule 19: the line with i, which must stand at the place (0 first or left, 1 second or right), replaced by j.
fn replaced(mut line: Line, place: u8, i: u8, j: u8) -> Option<Line> {
    let name = match (&mut line, place) {
        (Line::Has { name, .. }, 0) => name,
        (Line::Is { first, .. }, 0) => first,
        (Line::Is { second, .. }, 1) => second,
        (Line::Edge { from, .. }, 0) => from,
        (Line::Edge { to, .. }, 1) => to,
        (Line::Compare { left, .. }, 0) => &mut left.0,
        (Line::Compare { right, .. }, 1) => &mut right.0,
        _ => return None,
    };
    if *name != i {
        return None;
    }
    *name = j;
    Some(line)
}

/// Rule 20: (i, end) same (j, end) and (j, end) same or differ (k, end), both held and on one channel.
fn chained(p: Line, q: Line) -> Option<Line> {
    let Line::Compare {
        holds: true,
        comparison: Comparison::Same,
        channel,
        left: (i, None),
        right: (j, None),
    } = p
    else {
        return None;
    };
    match q {
        Line::Compare {
            holds: true,
            comparison,
            channel: q_channel,
            left: (q_left, None),
            right: (k, None),
        } if q_channel == channel && q_left == j => Some(ends_compare(comparison, channel, i, k)),
        _ => None,
    }
}
