//! Which lines a rule may take, by their forms.

use oracle::pattern::{Comparison, Entry, Pattern};
use oracle::tableau::line::Line;

/// The rules other than clashes that a line of this form may be P of.
pub fn rules_for(pattern: &Pattern, line: &Line) -> &'static [u8] {
    match *line {
        Line::Has { holds, entry, .. } => rules_for_entry(&pattern.entries[entry], holds),
        Line::Is { holds: true, .. } => &[17, 18, 19, 19, 19],
        Line::Is { holds: false, .. } | Line::Edge { .. } => &[],
        Line::Compare { holds, left: (_, Some(path)), .. } => rules_for_path(&pattern.entries[path], holds),
        Line::Compare { right: (_, Some(_)), .. } => &[8],
        Line::Compare { holds: true, .. } => &[8, 20, 20],
        Line::Compare { holds: false, .. } => &[8, 16, 16],
    }
}

/// The rules for a name that has the node entry, or lacks it.
fn rules_for_entry(entry: &Entry, has: bool) -> &'static [u8] {
    match (entry, has) {
        (Entry::Not(_), _) => &[1],
        (Entry::Both(..), true) => &[2],
        (Entry::Both(..), false) => &[3],
        (Entry::Either(..), true) => &[24],
        (Entry::Either(..), false) => &[25],
        (Entry::Name(_), _) => &[4],
        (Entry::After(..), true) => &[5],
        (Entry::After(..), false) => &[6],
        (Entry::Compare(..), _) => &[7],
        _ => &[],
    }
}

/// The rules for a comparison, held or barred, whose left path is the entry.
fn rules_for_path(entry: &Entry, held: bool) -> &'static [u8] {
    match (entry, held) {
        (Entry::Jump(..), _) => &[9],
        (Entry::Test(..), true) => &[10],
        (Entry::Test(..), false) => &[11],
        (Entry::Fork(..), true) => &[12],
        (Entry::Fork(..), false) => &[13],
        (_, true) => &[14],
        (_, false) => &[15],
    }
}

#[derive(Clone, Copy, PartialEq, Eq)]
pub enum Premise {
    P,
    Q,
}

/// Whether the line is of about the form that the rule wants of P or Q.
pub fn resembles(pattern: &Pattern, rule: u8, premise: Premise, line: &Line) -> bool {
    match (rule, premise) {
        (6 | 15, Premise::Q) => matches!(line, Line::Edge { .. }),
        (6 | 15, Premise::P) => rules_for(pattern, line).contains(&rule),
        (16, Premise::P) => matches!(line, Line::Compare { holds: false, .. }),
        (17..=19, Premise::P) => matches!(line, Line::Is { .. }),
        (20, _) => matches!(line, Line::Compare { holds: true, left: (_, None), right: (_, None), .. }),
        (22, Premise::P) => matches!(line, Line::Compare { holds: true, comparison: Comparison::Same, .. }),
        (22, Premise::Q) => matches!(line, Line::Compare { holds: true, comparison: Comparison::Differ, .. }),
        (23, Premise::P) => matches!(line, Line::Is { .. } | Line::Compare { .. }),
        _ => true,
    }
}

/// How many names of one line the other has, and how much of two comparisons is alike.
pub fn in_common(p: &Line, q: &Line) -> usize {
    let names = match *q {
        Line::Has { name, .. } => [name; 2],
        Line::Is { first, second, .. } => [first, second],
        Line::Edge { from, to, .. } => [from, to],
        Line::Compare { left, right, .. } => [left.0, right.0],
    };
    let shared = names.into_iter().filter(|&name| p.has_name(name)).count();
    shared + alike(p, q)
}

/// How many of channel, left side and right side two comparisons share.
fn alike(p: &Line, q: &Line) -> usize {
    let parts = |line: &Line| match *line {
        Line::Compare { channel, left, right, .. } => Some((channel, left, right)),
        _ => None,
    };
    let (Some(p), Some(q)) = (parts(p), parts(q)) else { return 0 };
    [p.0 == q.0, p.1 == q.1, p.2 == q.2].into_iter().filter(|&shared| shared).count()
}
