//! What stands at the place of a refusal of a file: 1 to 8, 10 to 14, 15 to 18, 28.

use super::{Conclusion, refused};
use crate::bytes::u16_at;
use crate::explain::wording::{count, counts, hexadecimal};
use crate::finding::Refusal;
use crate::pattern::{MAX_AXIS, MAX_NAME, Pattern};
use crate::typed::parse;
use crate::{model, pattern, tableau};

/// By kind, from 1: its name and the fields that it uses.
const KINDS: [(&str, &str); 12] = [
    ("property", "x property"),
    ("name", "x name"),
    ("not", "x node entry"),
    ("both", "x node entry, y node entry"),
    ("after", "x axis, y node entry"),
    ("same", "x channel, y path, z path"),
    ("differ", "x channel, y path, z path"),
    ("step", "x axis, y path"),
    ("jump", "x name, y path"),
    ("test", "x node entry, y path"),
    ("fork", "x path, y path"),
    ("either", "x node entry, y node entry"),
];

/// A kind's name and the fields that it uses; `None` for a kind that there isn't.
pub fn kind(number: u8) -> Option<(&'static str, &'static str)> {
    KINDS.get((number as usize).checked_sub(1)?).copied()
}

pub fn of_pattern(bytes: &[u8], refusal: Refusal) -> Conclusion {
    let detail = match refusal.number {
        1 | 2 => beginning(bytes, "PAT"),
        3 => {
            let entries = bytes[5] as usize;
            let wanted = pattern::HEADER_BYTES + pattern::ENTRY_BYTES * entries;
            lengths(bytes, &count(entries, "entry", "entries"), wanted)
        }
        _ => entry(&bytes[pattern::HEADER_BYTES..], refusal),
    };
    refused(refusal, &detail)
}

pub fn of_model(bytes: &[u8], refusal: Refusal) -> Conclusion {
    refused(refusal, &at_model(bytes, refusal))
}

/// What stands at the place of refusal 10 to 14 or 28 of a model file.
fn at_model(bytes: &[u8], refusal: Refusal) -> String {
    if matches!(refusal.number, 10 | 11) {
        return beginning(bytes, "DAT");
    }
    let (nodes, names, edges) = (bytes[5] as usize, bytes[6] as usize, u16_at(bytes, 7) as usize);
    let name_records = model::HEADER_BYTES + model::NODE_BYTES * nodes;
    let edge_records = name_records + model::NAME_BYTES * names;
    match refusal.number {
        12 => lengths(bytes, &counts(nodes, names, edges), edge_records + model::EDGE_BYTES * edges),
        13 => name_record(&bytes[name_records..], refusal.place as usize, nodes),
        14 => edge_record(&bytes[edge_records..], refusal.place as usize, nodes),
        _ => format!("{}\n{}", edge_order(&bytes[edge_records..], refusal.place as usize), remedy(bytes)),
    }
}

pub fn of_tableau(pattern: &Pattern, bytes: &[u8], refusal: Refusal) -> Conclusion {
    let detail = match refusal.number {
        15 | 16 => beginning(bytes, "TAB"),
        17 => {
            let steps = u16_at(bytes, 6) as usize;
            let wanted = tableau::HEADER_BYTES + tableau::STEP_BYTES * steps;
            lengths(bytes, &count(steps, "step", "steps"), wanted)
        }
        _ => start_name(pattern, bytes[5]),
    };
    refused(refusal, &detail)
}

/// The mark and the version, as far as they are there, of a file that should have its own mark.
fn beginning(bytes: &[u8], own: &str) -> String {
    match bytes.len() {
        0 => "The file is empty.".to_string(),
        length => {
            let begins = hexadecimal(&bytes[..length.min(5)]);
            format!("The file has {} and begins {begins}.{}", file_length(length), other_sort(bytes, own))
        }
    }
}

/// What the file is by its mark, if it is of another sort than wanted: two files may have been exchanged.
fn other_sort(bytes: &[u8], own: &str) -> String {
    let sorts = [("PAT", "pattern"), ("DAT", "model"), ("TAB", "tableau")];
    let other = sorts.into_iter().find(|(mark, _)| *mark != own && bytes.starts_with(mark.as_bytes()));
    match other {
        Some((mark, sort)) => format!(" {mark} begins a {sort} file."),
        None if own == "PAT" && is_text(bytes) => " It is a typed pattern, which --text takes.".to_string(),
        None => String::new(),
    }
}

/// Whether a file has a typed pattern, with a line feed at its end or without.
fn is_text(bytes: &[u8]) -> bool {
    parse(bytes.strip_suffix(b"\n").unwrap_or(bytes)).is_ok()
}

fn lengths(bytes: &[u8], says: &str, wanted: usize) -> String {
    let wanted = count(wanted, "byte", "bytes");
    format!("The file says {says}, which makes {wanted}; it has {}.", file_length(bytes.len()))
}

/// How long a file is. Of one that is longer than any of the unit's a tool reads only so much as shows it.
pub fn file_length(length: usize) -> String {
    match length {
        0..=tableau::LONGEST => count(length, "byte", "bytes"),
        _ => format!("over {}", count(tableau::LONGEST, "byte", "bytes")),
    }
}

/// The entry's bytes, what its kind uses, and the earlier entry that a repeat equals.
fn entry(records: &[u8], refusal: Refusal) -> String {
    let place = refusal.place as usize;
    let record = |number: usize| &records[pattern::ENTRY_BYTES * number..][..pattern::ENTRY_BYTES];
    let fields: Vec<String> = record(place).iter().map(u8::to_string).collect();
    let mut text = format!("Entry {place} is {}.", fields.join(","));
    let number = record(place)[0];
    if let Some((name, uses)) = kind(number) {
        text += &format!(" Kind {number} ({name}) uses {uses}.");
    }
    if let Some(earlier) = (0..place).find(|&earlier| record(earlier) == record(place)) {
        text += &format!(" Entry {earlier} is the same.");
    }
    text
}

fn name_record(records: &[u8], place: usize, nodes: usize) -> String {
    let record = |number: usize| &records[model::NAME_BYTES * number..];
    let (name, node, last) = (record(place)[0], record(place)[1], nodes - 1);
    let mut text =
        format!("The record is name {name}, node {node}; the last name is {MAX_NAME}, the last node {last}.");
    if let Some(earlier) = (0..place).find(|&earlier| record(earlier)[0] == name) {
        text += &format!(" Name record {earlier} has the name.");
    }
    text
}

fn edge_record(records: &[u8], place: usize, nodes: usize) -> String {
    let (fields, last) = (edge_fields(records, place), nodes - 1);
    format!("The record is {fields}; the last node is {last}, the last axis {MAX_AXIS}.")
}

/// The record and the one before it, and what is to be done with it: the earlier ones rise, so it repeats one of
/// them or belongs before one of them.
fn edge_order(records: &[u8], place: usize) -> String {
    let record = |number: usize| &records[model::EDGE_BYTES * number..][..model::EDGE_BYTES];
    let before = place - 1;
    let first = (0..before).find(|&earlier| record(earlier) >= record(place)).unwrap_or(before);
    let fault = if record(first) == record(place) {
        format!("repeats record {first}: leave it out")
    } else if first == before {
        format!("comes before record {before} in that order")
    } else {
        format!("comes before record {before} in that order, and belongs before record {first}")
    };
    format!(
        "Edge record {place} is {}; edge record {before} is {}.\nEdge record {place} {fault}.",
        edge_fields(records, place),
        edge_fields(records, before)
    )
}

/// What helps against edges out of order, unless a later one is at fault besides.
fn remedy(bytes: &[u8]) -> String {
    match model::parse_old(bytes) {
        Ok(_) => "`riser order` writes the same model with its edges in order.".to_string(),
        Err(later) => format!("Behind it stands another fault: {}.", refused(later, "").line()),
    }
}

fn edge_fields(records: &[u8], place: usize) -> String {
    let record = &records[model::EDGE_BYTES * place..];
    format!("from {}, axis {}, to {}", record[0], record[1], record[2])
}

fn start_name(pattern: &Pattern, start: u8) -> String {
    match pattern.entries.iter().position(|entry| entry.name() == Some(start)) {
        Some(user) => format!("The start name is {start}, and entry {user} has it."),
        None => format!("The start name is {start}."),
    }
}
