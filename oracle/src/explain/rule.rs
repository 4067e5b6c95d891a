//! The rules' names, what each says after the documents' lists, and steps in words.

use super::formula::Formula;
use super::wording::numbered;
use crate::tableau::line::Line;
use crate::tableau::rules::{LAST_RULE, Step, uses_q};

/// A rule's name and what it says; `None` for a rule that there isn't.
pub fn described(rule: u8) -> Option<(&'static str, &'static str)> {
    RULES.get((rule as usize).checked_sub(1)?).copied()
}

/// By rule number, from 1.
const RULES: [(&str, &str); LAST_RULE as usize] = [
    ("not", "P has/lacks !f: lacks/has f"),
    ("has both", "P has (f&g): has f, then has g"),
    ("lacks both", "P lacks (f&g): fork, lacks f or lacks g"),
    ("name", "P has/lacks name j: is/is not j"),
    ("has after", "P: i has <a>f; argument a fresh j: axis a leads from i to j, then j has f"),
    ("lacks after", "P: i lacks <a>f; Q: axis a leads from i to j: j lacks f"),
    ("comparison", "P: i has/lacks [x=cy] or [x#cy]: (i, x) =c or #c (i, y) holds/is barred"),
    ("exchange", "P a comparison: its two sides exchanged"),
    ("jump", "P a comparison, left path @k, then x: the left side becomes (k, x)"),
    ("held test", "P held, left path ?f, then x: i has f, then the comparison with x"),
    ("barred test", "P barred, left path ?f, then x: fork, i lacks f or barred with x"),
    ("held fork", "P held, left path {x|y}: fork, with x or with y"),
    ("barred fork", "P barred, left path {x|y}: barred with x, then with y"),
    (
        "held step",
        "P held, left path /a, then x; argument a fresh k: axis a leads from i to k, then held with (k, x)",
    ),
    ("barred step", "P barred, left path /a, then x; Q: axis a leads from i to k: barred with (k, x)"),
    ("barred ends", "P barred, both paths at end: the other of = and # holds"),
    ("turned round", "P: i is j: j is i"),
    ("same data", "P: i is j; argument a channel c: (i, end) =c (j, end)"),
    (
        "replace",
        "P: i is j; argument 0 (first or left name) or 1 (second or right): Q with i there replaced by j",
    ),
    (
        "chain",
        "P: (i, end) =c (j, end); Q: (j, end) =c or #c (k, end): (i, end) and (k, end) compare as in Q",
    ),
    ("clash of signs", "P and Q alike but for sign: clash"),
    ("clash of data", "P = and Q # hold, all else alike and both paths at end: clash"),
    ("clash with itself", "P is \"i is not i\", or (i, end) #c (i, end) holds: clash"),
    ("has either", "P has (f|g): fork, has f or has g"),
    ("lacks either", "P lacks (f|g): lacks f, then lacks g"),
];

/// A step: its rule and the fields that the rule uses.
pub fn step(step: &Step) -> String {
    let name = described(step.rule).map_or("unknown", |(name, _)| name);
    let mut text = format!("rule {} ({name}), P {}", step.rule, step.p);
    if uses_q(step.rule) {
        text += &format!(", Q {}", step.q);
    }
    match step.rule {
        5 | 14 => text += &format!(", fresh name n{}", step.argument),
        18 => text += &format!(", channel {}", step.argument),
        19 => text += &format!(", place {}", step.argument),
        _ => {}
    }
    text
}

/// The lines that a step uses, P first, as far as they are on the branch.
pub fn used_lines(formula: &Formula, branch: &[Line], step: &Step) -> Vec<String> {
    let q = uses_q(step.rule).then_some(step.q);
    let numbers = [Some(step.p), q].into_iter().flatten().map(usize::from);
    numbers.filter(|&number| number < branch.len()).map(|number| numbered(formula, branch, number)).collect()
}
