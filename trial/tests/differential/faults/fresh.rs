//! Wrong ways to tell whether a pattern uses a name and whether a branch has it.

use oracle::pattern::{Entry, Pattern};
use oracle::tableau::line::Line;

/// Whether it takes a pattern to use a name, with the words for what it goes by.
pub type Set = (&'static str, fn(&Pattern, u8) -> bool);

pub const SETS: [Set; 12] = [
    ("no name", |_, _| false),
    ("entries that the root reaches", |pattern, name| {
        let mut entries = pattern.entries.iter().zip(pattern.reached());
        entries.any(|(entry, reached)| reached && entry.name() == Some(name))
    }),
    ("no jump", |pattern, name| pattern.entries.contains(&Entry::Name(name))),
    ("jumps alone", |pattern, name| {
        pattern.entries.iter().any(|entry| matches!(entry, Entry::Jump(to, _) if *to == name))
    }),
    ("no first entry", |pattern, name| among(&pattern.entries[1..], name)),
    ("no last entry", |pattern, name| among(&pattern.entries[..pattern.entries.len() - 1], name)),
    ("a set of 64 bits", |pattern, name| pattern.uses(name % 64) || pattern.uses(name % 64 + 64)),
    ("the lower half alone", |pattern, name| name < 64 && pattern.uses(name)),
    ("the upper half alone", |pattern, name| name >= 64 && pattern.uses(name)),
    ("the halves exchanged", |pattern, name| pattern.uses(name ^ 64)),
    ("name 0 never", |pattern, name| name > 0 && pattern.uses(name)),
    ("name 127 never", |pattern, name| name < 127 && pattern.uses(name)),
];

/// Whether one of the entries has the name.
fn among(entries: &[Entry], name: u8) -> bool {
    entries.iter().any(|entry| entry.name() == Some(name))
}

/// Whether it takes a branch to have a name, with the words for the lines that it goes by.
pub type Search = (&'static str, fn(&[Line], u8) -> bool);

pub const SEARCHES: [Search; 12] = [
    ("the first line alone", |branch, name| any(&branch[..1], name)),
    ("the last line alone", |branch, name| any(&branch[branch.len() - 1..], name)),
    ("no first line", |branch, name| any(&branch[1..], name)),
    ("no last line", |branch, name| any(&branch[..branch.len() - 1], name)),
    ("no last two lines", |branch, name| any(&branch[..branch.len().saturating_sub(2)], name)),
    ("lines up to 255", |branch, name| any(&branch[..branch.len().min(256)], name)),
    ("lines of has alone", |branch, name| such(branch, name, |line| matches!(line, Line::Has { .. }))),
    ("axis lines alone", |branch, name| such(branch, name, is_axis)),
    ("no axis line nor comparison", |branch, name| {
        such(branch, name, |line| !is_axis(line) && !is_comparison(line))
    }),
    ("second names alone", |branch, name| branch.iter().any(|line| second(line) == Some(name))),
    ("a name for the one 64 apart", |branch, name| any(branch, name) || any(branch, name ^ 64)),
    ("names from 64 on never", |branch, name| name < 64 && any(branch, name)),
];

/// Searches that leave something out and are right all the same, as `trial/src/differential/fresh.rs` says.
pub const RIGHT: [Search; 4] = [
    ("first names alone", |branch, name| branch.iter().any(|line| first(line) == name)),
    ("no axis line", |branch, name| such(branch, name, |line| !is_axis(line))),
    ("no comparison", |branch, name| such(branch, name, |line| !is_comparison(line))),
    ("no last line but of one alone", |branch, name| any(&branch[..(branch.len() - 1).max(1)], name)),
];

/// Whether one of the lines has the name.
fn any(lines: &[Line], name: u8) -> bool {
    lines.iter().any(|line| line.has_name(name))
}

/// Whether such a line has the name.
fn such(branch: &[Line], name: u8, is_such: fn(&Line) -> bool) -> bool {
    branch.iter().any(|line| is_such(line) && line.has_name(name))
}

fn is_axis(line: &Line) -> bool {
    matches!(line, Line::Edge { .. })
}

fn is_comparison(line: &Line) -> bool {
    matches!(line, Line::Compare { .. })
}

/// The first or left name.
fn first(line: &Line) -> u8 {
    match *line {
        Line::Has { name, .. } => name,
        Line::Is { first, .. } => first,
        Line::Edge { from, .. } => from,
        Line::Compare { left, .. } => left.0,
    }
}

/// The second or right name, if the line has one.
fn second(line: &Line) -> Option<u8> {
    match *line {
        Line::Has { .. } => None,
        Line::Is { second, .. } => Some(second),
        Line::Edge { to, .. } => Some(to),
        Line::Compare { right, .. } => Some(right.0),
    }
}
