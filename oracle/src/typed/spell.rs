//! The text of a pattern: typed, it gives the entries that the root reaches.
//!
//! What both paths of a fork come to is written once, behind the brace, so that a pattern that was typed has no longer
//! text than was typed. In other patterns entries may be shared that a text has to repeat.

use super::MAX_TEXT;
use crate::pattern::{Comparison, Entry, Path, Pattern};

/// The root's text; none if it has over 1,024 bytes, which can't be typed.
pub fn spell(pattern: &Pattern) -> Option<String> {
    let next = ways_on(pattern);
    let mut spelling = Spelling { pattern, next, text: String::new() };
    spelling.node(pattern.entries.len() - 1)?;
    Some(spelling.text)
}

/// How a comparison is written.
pub fn sign(comparison: Comparison) -> char {
    match comparison {
        Comparison::Same => '=',
        Comparison::Differ => '#',
    }
}

/// For each path entry where it goes on in a row: the first path that all ways through it come to. The end for a node
/// entry, which goes nowhere.
fn ways_on(pattern: &Pattern) -> Vec<Path> {
    let mut next: Vec<Path> = Vec::new();
    for entry in &pattern.entries {
        next.push(match *entry {
            Entry::Step(_, alpha) | Entry::Jump(_, alpha) | Entry::Test(_, alpha) => alpha,
            Entry::Fork(alpha, beta) => meeting(&next, alpha, beta),
            _ => None,
        });
    }
    next
}

/// The first path that both come to. A path goes on to earlier entries, and the end comes before all of them.
fn meeting(next: &[Path], mut alpha: Path, mut beta: Path) -> Path {
    while alpha != beta {
        let later = if alpha > beta { &mut alpha } else { &mut beta };
        *later = later.and_then(|entry| next[entry]);
    }
    alpha
}

struct Spelling<'a> {
    pattern: &'a Pattern,
    next: Vec<Path>,
    text: String,
}

/// Each function writes at least a byte before it goes deeper, and stops where the text gets too long.
impl Spelling<'_> {
    fn node(&mut self, entry: usize) -> Option<()> {
        match self.pattern.entries[entry] {
            Entry::Property(property) => self.put(&format!("p{property}")),
            Entry::Name(name) => self.put(&format!("n{name}")),
            Entry::Not(phi) => self.before("!", phi),
            Entry::Both(phi, psi) => self.two_nodes(phi, "&", psi),
            Entry::Either(phi, psi) => self.two_nodes(phi, "|", psi),
            Entry::After(axis, phi) => self.before(&format!("<{axis}>"), phi),
            Entry::Compare(comparison, channel, alpha, beta) => {
                self.put("[")?;
                self.row(alpha, None)?;
                self.put(&format!("{}{channel}", sign(comparison)))?;
                self.row(beta, None)?;
                self.put("]")
            }
            Entry::Step(..) | Entry::Jump(..) | Entry::Test(..) | Entry::Fork(..) => {
                unreachable!("node references and the root are nodes")
            }
        }
    }

    fn before(&mut self, sign: &str, phi: usize) -> Option<()> {
        self.put(sign)?;
        self.node(phi)
    }

    fn two_nodes(&mut self, phi: usize, sign: &str, psi: usize) -> Option<()> {
        self.put("(")?;
        self.node(phi)?;
        self.put(sign)?;
        self.node(psi)?;
        self.put(")")
    }

    /// The row of a path up to one that it comes to.
    fn row(&mut self, path: Path, end: Path) -> Option<()> {
        let onward = std::iter::successors(path, |&entry| self.next[entry]);
        let parts: Vec<usize> = onward.take_while(|&entry| Some(entry) != end).collect();
        parts.into_iter().try_for_each(|entry| self.part(entry))
    }

    fn part(&mut self, entry: usize) -> Option<()> {
        match self.pattern.entries[entry] {
            Entry::Step(axis, _) => self.put(&format!("/{axis}")),
            Entry::Jump(name, _) => self.put(&format!("@{name}")),
            Entry::Test(phi, _) => self.before("?", phi),
            Entry::Fork(alpha, beta) => {
                self.put("{")?;
                self.row(alpha, self.next[entry])?;
                self.put("|")?;
                self.row(beta, self.next[entry])?;
                self.put("}")
            }
            _ => unreachable!("path references are paths"),
        }
    }

    fn put(&mut self, text: &str) -> Option<()> {
        self.text += text;
        (self.text.len() <= MAX_TEXT).then_some(())
    }
}
