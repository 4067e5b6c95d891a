//! Rules 1 to 7, 24 and 25: P says that a name has or lacks a node entry.

use super::Conclusion::{self, Fork, One, Two};
use super::{Premises, Step};
use crate::pattern::{Entry, Pattern};
use crate::tableau::line::Line;

/// The conclusion of one of these rules, or `None` if the lines don't fit.
pub fn conclude(pattern: &Pattern, premises: Premises, step: &Step) -> Option<Conclusion> {
    let Line::Has { holds, name: i, entry } = premises.p else { return None };
    let has = |name, entry| Line::Has { holds: true, name, entry };
    let lacks = |name, entry| Line::Has { holds: false, name, entry };
    let conclusion = match (step.rule, pattern.entries[entry]) {
        (1, Entry::Not(phi)) => One(Line::Has { holds: !holds, name: i, entry: phi }),
        (2, Entry::Both(phi, psi)) if holds => Two(has(i, phi), has(i, psi)),
        (3, Entry::Both(phi, psi)) if !holds => Fork(lacks(i, phi), lacks(i, psi)),
        (4, Entry::Name(j)) => One(Line::Is { holds, first: i, second: j }),
        (5, Entry::After(axis, phi)) if holds => {
            let j = step.argument;
            Two(Line::Edge { axis, from: i, to: j }, has(j, phi))
        }
        (6, Entry::After(axis, phi)) if !holds => One(lacks(premises.q.led_to(axis, i)?, phi)),
        (7, Entry::Compare(comparison, channel, alpha, beta)) => {
            One(Line::Compare { holds, comparison, channel, left: (i, alpha), right: (i, beta) })
        }
        (24, Entry::Either(phi, psi)) if holds => Fork(has(i, phi), has(i, psi)),
        (25, Entry::Either(phi, psi)) if !holds => Two(lacks(i, phi), lacks(i, psi)),
        _ => return None,
    };
    Some(conclusion)
}
