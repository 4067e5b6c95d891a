//! The entries of a pattern as a table.

use super::html::{self, Html, element, text, words};
use oracle::explain::formula::{Formula, NOTATION};
use oracle::explain::wording::count;
use oracle::pattern::Pattern;

/// A row of the table besides the entry and its text.
#[derive(Default)]
pub struct Row {
    /// Whether a refusal points at the entry.
    pub fault: bool,
    /// What stands before the entry's number, such as a button that chooses it.
    pub before: Option<Html>,
    /// What is said of the entry.
    pub said: String,
    /// The nodes that the entry is about, for a script: their numbers with blanks between them.
    pub nodes: Option<String>,
}

/// How the pattern is typed, and a table with a row for each entry; over what is said of them stands this heading.
pub fn table(pattern: &Pattern, formula: &Formula, said: &str, row: impl Fn(usize) -> Row) -> Html {
    let rows = (0..pattern.entries.len()).map(|entry| row_of(formula, entry, row(entry)));
    let table = html::table("entries", &["entry", "is", said], rows);
    let typed = words("p", &[("class", "mono typing")], formula.typed());
    element("div", &[("class", "listed")], [typed, table, words("p", &[("class", "note")], NOTATION)])
}

/// The same, folded: the pattern that a proposal is for. Those of its entries are marked that have the name, if one is
/// at fault.
pub fn folded(pattern: &Pattern, formula: &Formula, open: bool, fault: Option<u8>) -> Html {
    let summary = format!("The pattern: {}", count(pattern.entries.len(), "entry", "entries"));
    let row = |entry: usize| Row { fault: has_name(pattern, entry, fault), ..Row::default() };
    html::details(&[("class", "pattern")], open, [text(summary)], vec![table(pattern, formula, "", row)])
}

/// Whether the entry has the name, if there is one.
pub fn has_name(pattern: &Pattern, entry: usize, name: Option<u8>) -> bool {
    name.is_some() && pattern.entries[entry].name() == name
}

fn row_of(formula: &Formula, entry: usize, row: Row) -> Html {
    let (id, root) = (format!("e{entry}"), entry == formula.root());
    let mut attributes = vec![("id", id.as_str())];
    attributes.extend(row.fault.then_some(("class", "fault")));
    attributes.extend(row.nodes.as_ref().map(|nodes| ("data-nodes", nodes.as_str())));
    let number = format!("{id}{}", if root { " (the root)" } else { "" });
    let pointer = row.fault.then(html::here);
    let first = element("td", &[], pointer.into_iter().chain(row.before).chain([text(number)]));
    let is = element("td", &[], [words("code", &[], formula.text(entry))]);
    element("tr", &attributes, [first, is, words("td", &[], row.said)])
}
