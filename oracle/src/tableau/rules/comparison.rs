//! Rules 8 to 16: P is a comparison. Rules 9 to 15 look at its left path and keep the rest.

use super::Conclusion::{self, One, Two};
use super::{Premises, Step};
use crate::pattern::{Entry, Pattern};
use crate::tableau::line::{Line, Side};

/// The conclusion of a rule from 8 to 16, or `None` if the lines don't fit.
pub fn conclude(pattern: &Pattern, premises: Premises, step: &Step) -> Option<Conclusion> {
    let Line::Compare { holds, comparison, channel, left, right } = premises.p else { return None };
    let (i, left_path) = left;
    let with_left = |left: Side| Line::Compare { holds, comparison, channel, left, right };
    let conclusion = match (step.rule, left_path.map(|entry| pattern.entries[entry])) {
        (8, _) => One(Line::Compare { holds, comparison, channel, left: right, right: left }),
        (9, Some(Entry::Jump(k, alpha))) => One(with_left((k, alpha))),
        (10, Some(Entry::Test(phi, alpha))) if holds => {
            Two(Line::Has { holds: true, name: i, entry: phi }, with_left((i, alpha)))
        }
        (11, Some(Entry::Test(phi, alpha))) if !holds => {
            Conclusion::Fork(Line::Has { holds: false, name: i, entry: phi }, with_left((i, alpha)))
        }
        (12, Some(Entry::Fork(alpha, beta))) if holds => {
            Conclusion::Fork(with_left((i, alpha)), with_left((i, beta)))
        }
        (13, Some(Entry::Fork(alpha, beta))) if !holds => Two(with_left((i, alpha)), with_left((i, beta))),
        (14, Some(Entry::Step(axis, alpha))) if holds => {
            let k = step.argument;
            Two(Line::Edge { axis, from: i, to: k }, with_left((k, alpha)))
        }
        (15, Some(Entry::Step(axis, alpha))) if !holds => {
            One(with_left((premises.q.led_to(axis, i)?, alpha)))
        }
        (16, None) if !holds && right.1.is_none() => {
            One(Line::Compare { holds: true, comparison: comparison.other(), channel, left, right })
        }
        _ => return None,
    };
    Some(conclusion)
}
