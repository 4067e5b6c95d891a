//! Small pieces of text that several parts use.

use super::formula::Formula;
use crate::tableau::line::Line;
use crate::typed::sign;

/// A line of a tableau.
pub fn line(formula: &Formula, line: &Line) -> String {
    match *line {
        Line::Has { holds, name, entry } => {
            format!("n{name} {} {}", if holds { "has" } else { "lacks" }, formula.text(entry))
        }
        Line::Is { holds, first, second } => {
            format!("n{first} {} n{second}", if holds { "is" } else { "is not" })
        }
        Line::Edge { axis, from, to } => format!("axis {axis} leads from n{from} to n{to}"),
        Line::Compare { holds, comparison, channel, left, right } => format!(
            "{}(n{}, {}) {}{channel} (n{}, {})",
            if holds { "" } else { "barred " },
            left.0,
            formula.path(left.1),
            sign(comparison),
            right.0,
            formula.path(right.1),
        ),
    }
}

/// A line of a branch with its number.
pub fn numbered(formula: &Formula, branch: &[Line], number: usize) -> String {
    format!("[{number}] {}", line(formula, &branch[number]))
}

/// A number of things: `1 entry`, `4,096 entries`.
pub fn count(number: usize, one: &str, more: &str) -> String {
    format!("{} {}", in_thousands(number as u64), if number == 1 { one } else { more })
}

/// A number with its thousands apart: `10,000,000`.
pub fn in_thousands(number: u64) -> String {
    match number {
        0..1000 => number.to_string(),
        _ => format!("{},{:03}", in_thousands(number / 1000), number % 1000),
    }
}

/// A model's counts of nodes, names and edges.
pub fn counts(nodes: usize, names: usize, edges: usize) -> String {
    let (nodes, names) = (count(nodes, "node", "nodes"), count(names, "name", "names"));
    format!("{nodes}, {names}, {}", count(edges, "edge", "edges"))
}

/// Bytes as two hexadecimal digits each.
pub fn hexadecimal(bytes: &[u8]) -> String {
    joined(bytes.iter().map(|byte| format!("{byte:02x}")))
}

/// The texts with a blank between them.
pub fn joined(texts: impl Iterator<Item = String>) -> String {
    texts.collect::<Vec<_>>().join(" ")
}
