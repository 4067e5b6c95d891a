//! What stands in a file that is refused, field by field and record by record, with the place marked.

use super::html::{self, element, or_none, text as plain, words};
use super::{Drawing, entries, listing};
use listing::{Check, Header, Listing, number_of};
use oracle::explain::formula::Formula;
use oracle::explain::model::{lettered, properties_of};
use oracle::explain::refusal::{kind, shown};
use oracle::finding::Refusal;
use oracle::model::{EDGE_BYTES, MAX_EDGES, MAX_NAMES, MAX_NODES, NAME_BYTES, NODE_BYTES};
use oracle::pattern::{ENTRY_BYTES, Pattern};
use oracle::tableau::MAX_STEPS;
use oracle::typed::MAX_TEXT;
use oracle::{model, pattern, tableau};

/// A text, with the byte marked at which it goes wrong.
pub fn text(bytes: &[u8], Refusal { number, place }: Refusal) -> Drawing {
    let place = match number {
        _ if bytes.len() > MAX_TEXT => Some(MAX_TEXT),
        30 | 31 => Some(place.into()),
        _ => None,
    };
    let (before, rest) = bytes.split_at(place.unwrap_or(0));
    let (at, behind) = rest.split_at(rest.len().min(place.is_some().into()));
    let at = place.map(|place| {
        let at = match at {
            _ if place == MAX_TEXT && !rest.is_empty() => "too long from here on: ".to_string() + &shown(at),
            [] => "the end".to_string(),
            _ => shown(at),
        };
        words("mark", &[("class", "fault"), ("id", "here")], format!(" here: {at} "))
    });
    let content = [plain(shown(before))].into_iter().chain(at).chain([plain(shown(behind))]);
    let typed = element("pre", &[("class", "typed")], content);
    Drawing {
        sections: vec![html::section(None, "The text", [typed])],
        fault: place.map(|_| "here".to_string()),
        ..Drawing::default()
    }
}

/// A pattern file, with the entry marked, or its header.
pub fn pattern(bytes: &[u8], Refusal { number, place }: Refusal) -> Drawing {
    let none = bytes.get(5) == Some(&0);
    let header = Header::new(bytes, "PAT", &[("entries", 5, 1, none)], check(number, [1, 2, 3]));
    let records = bytes.get(pattern::HEADER_BYTES..).unwrap_or(&[]).chunks_exact(ENTRY_BYTES);
    let rows = records.take(pattern::MAX_ENTRIES).map(|record| {
        let (name, uses) = kind(record[0]).unwrap_or(("no such kind", ""));
        [record.iter().map(u8::to_string).collect(), vec![name.to_string(), uses.to_string()]].concat()
    });
    let columns = &["entry", "kind", "x", "y", "z", "is", "uses"];
    let entries = Listing { title: "Entries", id: "entry", columns, rows: rows.collect() };
    listing::drawing(vec![], header, vec![(entries, (number > 3).then_some(place))])
}

/// A model file, with the record marked, or its header.
pub fn model(pattern: &Pattern, formula: &Formula, bytes: &[u8], refusal: Refusal) -> Drawing {
    let number = refusal.number;
    let count = |place: usize, length| bytes.get(place..place + length).map_or(0, number_of) as usize;
    let [nodes, names, edges] = [count(5, 1), count(6, 1), count(7, 2)];
    let counts = [
        ("nodes", 5, 1, !(1..=MAX_NODES).contains(&nodes)),
        ("names", 6, 1, names > MAX_NAMES),
        ("edges", 7, 2, edges > MAX_EDGES),
    ];
    let header = Header::new(bytes, "DAT", &counts, check(number, [10, 11, 12]));
    let listings = if number > 12 { model_records(bytes, refusal) } else { vec![] };
    listing::drawing(vec![entries::folded(pattern, formula, false, None)], header, listings)
}

/// The records of a model file whose length fits its counts, with the one that is refused.
fn model_records(bytes: &[u8], Refusal { number, place }: Refusal) -> Vec<(Listing, Option<u16>)> {
    let (nodes, rest) = bytes[model::HEADER_BYTES..].split_at(NODE_BYTES * usize::from(bytes[5]));
    let (names, edges) = rest.split_at(NAME_BYTES * usize::from(bytes[6]));
    let bytewise = |records: &[u8], size| {
        records.chunks_exact(size).map(|record| record.iter().map(u8::to_string).collect()).collect()
    };
    let node = |record: &[u8]| {
        let (set, values) = record.split_at(4);
        let values = values.chunks_exact(2).map(|value| number_of(value).to_string());
        let properties = lettered('p', &properties_of(number_of(set)));
        [or_none(properties)].into_iter().chain(values).collect()
    };
    let node_columns = &["node", "properties", "channel 0", "channel 1", "channel 2", "channel 3"];
    let nodes = nodes.chunks_exact(NODE_BYTES).map(node).collect();
    let names = Listing {
        title: "Name records",
        id: "name",
        columns: &["record", "name", "node"],
        rows: bytewise(names, NAME_BYTES),
    };
    let edges = Listing {
        title: "Edge records",
        id: "edge",
        columns: &["record", "from", "axis", "to"],
        rows: bytewise(edges, EDGE_BYTES),
    };
    let nodes = Listing { title: "Node records", id: "node", columns: node_columns, rows: nodes };
    let refused = |numbers: &[u16]| numbers.contains(&number).then_some(place);
    vec![(names, refused(&[13])), (edges, refused(&[14, 28])), (nodes, None)]
}

/// A tableau file whose header is refused, with what is at fault in it marked, and the entries that have its start name.
pub fn tableau(
    pattern: &Pattern,
    formula: &Formula,
    bytes: &[u8],
    Refusal { number, .. }: Refusal,
) -> Drawing {
    let start = bytes.get(5).filter(|_| number == 18).copied();
    let count = bytes.get(6..8).map_or(0, number_of) as usize;
    let out_of_range = number == 17 && !(1..=MAX_STEPS).contains(&count);
    let numbers = [("start name", 5, 1, start.is_some()), ("steps", 6, 2, out_of_range)];
    let refused = start.map(|_| Check::Numbers).or(check(number, [15, 16, 17]));
    let header = Header::new(bytes, "TAB", &numbers, refused);
    let steps = bytes.get(tableau::HEADER_BYTES..).unwrap_or(&[]).chunks_exact(tableau::STEP_BYTES);
    let step = |step: &[u8]| {
        [&step[..1], &step[1..3], &step[3..5], &step[5..]].map(|field| number_of(field).to_string()).to_vec()
    };
    let columns = &["step", "rule", "P", "Q", "argument"];
    let steps = Listing { title: "Steps", id: "step", columns, rows: steps.map(step).collect() };
    listing::drawing(
        vec![entries::folded(pattern, formula, start.is_some(), start)],
        header,
        vec![(steps, None)],
    )
}

/// The check of a header by the refusals of its mark, its version and its numbers.
fn check(number: u16, [mark, version, numbers]: [u16; 3]) -> Option<Check> {
    let checks = [(mark, Check::Mark), (version, Check::Version), (numbers, Check::Numbers)];
    checks.into_iter().find(|(refused, _)| *refused == number).map(|(_, check)| check)
}
