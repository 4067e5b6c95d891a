//! A pattern as a formula, in the notation in which patterns are typed.
//!
//! Entries are shared, so a formula written out in full could be of exponential length. Each entry is written
//! once, in terms of the labels e0, e1, ... of earlier ones; an entry is written inside another only if its text
//! is tiny, or if that is its one use and its text is short. Below them stands the text that can be typed, which
//! has no labels.

use super::wording::count;
use crate::model::area;
use crate::pattern::{Entry, LONGEST, Path, Pattern};
use crate::typed::{MAX_TEXT, sign, spell, type_pattern};
use std::fmt;

/// The longest text, in characters, that is written inside the one entry that refers to it.
const SHORT: usize = 30;
/// The longest text that is written inside any number of entries.
const TINY: usize = 8;

/// How a formula is to be read.
pub const NOTATION: &str = "\
Notation: pN property, nN name, !f not, (f&g) both, (f|g) either, <N>f after on axis N,
[x=Ny] same and [x#Ny] differ on channel N; paths: /N step, @N jump to name N, ?f test,
{x|y} fork, nothing the end of path; eN the entry of that number, which can't be typed";

pub struct Formula<'a> {
    pattern: &'a Pattern,
    /// Each entry's text, in terms of the labels of those before it.
    texts: Vec<String>,
    /// Whether the entry has a line of its own and is mentioned by its label.
    labelled: Vec<bool>,
}

impl<'a> Formula<'a> {
    pub fn new(pattern: &'a Pattern) -> Self {
        let uses = use_counts(pattern);
        let mut formula = Formula { pattern, texts: Vec::new(), labelled: Vec::new() };
        for (number, entry) in pattern.entries.iter().enumerate() {
            let text = formula.written(entry);
            let longest_inside = match uses[number] {
                0 => 0,
                1 => SHORT,
                _ => TINY,
            };
            formula.labelled.push(text.len() > longest_inside);
            formula.texts.push(text);
        }
        formula
    }

    /// The entry's text.
    pub fn text(&self, entry: usize) -> &str {
        &self.texts[entry]
    }

    /// The path's text, and a word where it has none.
    pub fn path(&self, path: Path) -> &str {
        path.map_or("end", |entry| self.text(entry))
    }

    /// Whether some entry is mentioned by its label.
    pub fn has_labels(&self) -> bool {
        let mut mentioned = self.pattern.entries.iter().flat_map(Entry::references);
        mentioned.any(|entry| self.labelled[entry])
    }

    /// The root's number.
    pub fn root(&self) -> usize {
        self.texts.len() - 1
    }

    fn written(&self, entry: &Entry) -> String {
        match *entry {
            Entry::Property(property) => format!("p{property}"),
            Entry::Name(name) => format!("n{name}"),
            Entry::Not(phi) => format!("!{}", self.mention(phi)),
            Entry::Both(phi, psi) => format!("({}&{})", self.mention(phi), self.mention(psi)),
            Entry::After(axis, phi) => format!("<{axis}>{}", self.mention(phi)),
            Entry::Compare(comparison, channel, alpha, beta) => {
                format!("[{}{}{channel}{}]", self.whole(alpha), sign(comparison), self.rest(beta))
            }
            Entry::Step(axis, alpha) => format!("/{axis}{}", self.rest(alpha)),
            Entry::Jump(name, alpha) => format!("@{name}{}", self.rest(alpha)),
            Entry::Test(phi, alpha) => format!("?{}{}", self.mention(phi), self.rest(alpha)),
            Entry::Fork(alpha, beta) => format!("{{{}|{}}}", self.whole(alpha), self.whole(beta)),
            Entry::Either(phi, psi) => format!("({}|{})", self.mention(phi), self.mention(psi)),
        }
    }

    /// The entry inside another's text.
    fn mention(&self, entry: usize) -> String {
        if self.labelled[entry] { format!("e{entry}") } else { self.texts[entry].clone() }
    }

    /// A path that begins inside an entry's text: nothing at the end of path.
    fn whole(&self, path: Path) -> String {
        path.map_or(String::new(), |entry| self.mention(entry))
    }

    /// A path behind a number or a node, from which a label is kept apart.
    fn rest(&self, path: Path) -> String {
        match path {
            Some(entry) if self.labelled[entry] => format!(" e{entry}"),
            _ => self.whole(path),
        }
    }

    /// How the pattern is typed, and whether that gives another file.
    pub fn typed(&self) -> String {
        let Some(text) = spell(self.pattern) else {
            return format!("Too long to type: its text has over {}.", count(MAX_TEXT, "byte", "bytes"));
        };
        let file = type_pattern(text.as_bytes(), LONGEST);
        if file == Ok(self.pattern.to_bytes()) {
            format!("Typed: {text}")
        } else {
            format!("Typed (the entries that the root reaches, in the order of typing): {text}")
        }
    }
}

impl fmt::Display for Formula<'_> {
    fn fmt(&self, f: &mut fmt::Formatter<'_>) -> fmt::Result {
        let entries = count(self.texts.len(), "entry", "entries");
        writeln!(f, "Pattern of {entries}, the root is e{}:", self.root())?;
        let reached = self.pattern.reached();
        for (number, text) in self.texts.iter().enumerate().filter(|(number, _)| self.labelled[*number]) {
            let note = if reached[number] { "" } else { "   (the root doesn't reach it)" };
            writeln!(f, "  e{number} := {text}{note}")?;
        }
        writeln!(f, "{}", self.typed())?;
        let (area, nodes) =
            (area(self.pattern), count(self.pattern.node_entries(), "node entry", "node entries"));
        writeln!(f, "Judging a model wants {area} bytes of working area: {nodes}, 8 bytes each.")?;
        writeln!(f, "{NOTATION}")
    }
}

/// How often each entry is referred to.
fn use_counts(pattern: &Pattern) -> Vec<usize> {
    let mut counts = vec![0; pattern.entries.len()];
    for referred in pattern.entries.iter().flat_map(Entry::references) {
        counts[referred] += 1;
    }
    counts
}
