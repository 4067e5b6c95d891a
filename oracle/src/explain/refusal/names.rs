//! What refusal 27 points at: the entries that have the name, and the other names that aren't listed.

use super::{Conclusion, refused};
use crate::explain::wording::joined;
use crate::finding::Refusal;
use crate::model::Model;
use crate::pattern::Pattern;

/// The refusal's place is a name that the pattern uses.
pub fn of_names(pattern: &Pattern, model: &Model, refusal: Refusal) -> Conclusion {
    let name = refusal.place as u8;
    let mut detail = users(pattern, name);
    let others = pattern.names().into_iter().filter(|&other| other != name && !model.lists(other));
    let others = joined(others.map(|other| format!("n{other}")));
    if !others.is_empty() {
        detail += &format!("\nNot listed either: {others}.");
    }
    refused(refusal, &detail)
}

/// The entries that have the name, of which there is at least one.
fn users(pattern: &Pattern, name: u8) -> String {
    let entries = (0..pattern.entries.len()).filter(|&entry| pattern.entries[entry].name() == Some(name));
    let entries: Vec<String> = entries.map(|entry| entry.to_string()).collect();
    match &entries[..] {
        [entry] => format!("Entry {entry} of the pattern has it."),
        _ => format!("Entries {} of the pattern have it.", entries.join(" ")),
    }
}
