//! The pattern file: refusals 1 to 8, and writing one.

use super::{Comparison, Entry, MAX_AXIS, MAX_CHANNEL, MAX_NAME, MAX_PROPERTY, Path, Pattern};
use crate::bytes::{FORMAT_VERSION, u16_at};
use crate::finding::Refusal;

/// The path reference that means end of path.
const END: u8 = 255;

const MARK: &[u8] = b"PAT";
pub const HEADER_BYTES: usize = 6;
pub const ENTRY_BYTES: usize = 4;

/// What a field of an entry holds.
#[derive(Clone, Copy, PartialEq, Eq)]
enum Field {
    Unused,
    Property,
    Name,
    Axis,
    Channel,
    Node,
    Path,
}

/// Refusals 1 to 8, or the pattern.
pub fn parse(bytes: &[u8]) -> Result<Pattern, Refusal> {
    if bytes.len() < HEADER_BYTES || !bytes.starts_with(MARK) {
        return Err(Refusal { number: 1, place: 0 });
    }
    if u16_at(bytes, 3) != FORMAT_VERSION {
        return Err(Refusal { number: 2, place: 0 });
    }
    let count = bytes[5] as usize;
    if count == 0 || bytes.len() != HEADER_BYTES + ENTRY_BYTES * count {
        return Err(Refusal { number: 3, place: 0 });
    }
    let mut entries = Vec::with_capacity(count);
    for record in bytes[HEADER_BYTES..].chunks_exact(ENTRY_BYTES) {
        let place = entries.len() as u16;
        entries.push(parse_entry(record, &entries).map_err(|number| Refusal { number, place })?);
    }
    if entries[count - 1].is_path() {
        return Err(Refusal { number: 8, place: count as u16 - 1 });
    }
    Ok(Pattern { entries })
}

/// Refusals 4 to 7 (by number), or the entry. Ranges and zeros of all fields come before any reference.
fn parse_entry(record: &[u8], earlier: &[Entry]) -> Result<Entry, u16> {
    let (kind, values) = (record[0], [record[1], record[2], record[3]]);
    let fields = fields_of(kind).ok_or(4u16)?;
    if !fields.into_iter().zip(values).all(|(field, value)| in_range(field, value)) {
        return Err(5);
    }
    if !fields.into_iter().zip(values).all(|(field, value)| refers_well(field, value, earlier)) {
        return Err(6);
    }
    let entry = decoded(kind, values);
    if earlier.contains(&entry) {
        return Err(7);
    }
    Ok(entry)
}

/// The table of kinds: what x, y and z hold.
fn fields_of(kind: u8) -> Option<[Field; 3]> {
    use Field::*;
    Some(match kind {
        1 => [Property, Unused, Unused],
        2 => [Name, Unused, Unused],
        3 => [Node, Unused, Unused],
        4 => [Node, Node, Unused],
        5 => [Axis, Node, Unused],
        6 | 7 => [Channel, Path, Path],
        8 => [Axis, Path, Unused],
        9 => [Name, Path, Unused],
        10 => [Node, Path, Unused],
        11 => [Path, Path, Unused],
        12 => [Node, Node, Unused],
        _ => return None,
    })
}

/// "5, a field out of range or an unused one not zero": references have no range of their own.
fn in_range(field: Field, value: u8) -> bool {
    match field {
        Field::Unused => value == 0,
        Field::Property => value <= MAX_PROPERTY,
        Field::Name => value <= MAX_NAME,
        Field::Axis => value <= MAX_AXIS,
        Field::Channel => value <= MAX_CHANNEL,
        Field::Node | Field::Path => true,
    }
}

/// "6, a reference that isn't an earlier entry of the wanted sort (path end excepted)".
fn refers_well(field: Field, value: u8, earlier: &[Entry]) -> bool {
    let referred = earlier.get(value as usize);
    match field {
        Field::Node => referred.is_some_and(|entry| !entry.is_path()),
        Field::Path => value == END || referred.is_some_and(|entry| entry.is_path()),
        _ => true,
    }
}

/// The entry of a kind from 1 to 12 with these fields.
fn decoded(kind: u8, [x, y, z]: [u8; 3]) -> Entry {
    let node = |value: u8| value as usize;
    let path = |value: u8| (value != END).then_some(value as usize);
    match kind {
        1 => Entry::Property(x),
        2 => Entry::Name(x),
        3 => Entry::Not(node(x)),
        4 => Entry::Both(node(x), node(y)),
        5 => Entry::After(x, node(y)),
        6 => Entry::Compare(Comparison::Same, x, path(y), path(z)),
        7 => Entry::Compare(Comparison::Differ, x, path(y), path(z)),
        8 => Entry::Step(x, path(y)),
        9 => Entry::Jump(x, path(y)),
        10 => Entry::Test(node(x), path(y)),
        11 => Entry::Fork(path(x), path(y)),
        _ => Entry::Either(node(x), node(y)),
    }
}

impl Entry {
    /// The entry's four bytes.
    pub fn to_bytes(&self) -> [u8; 4] {
        let node = |entry: usize| entry as u8;
        let path = |path: Path| path.map_or(END, |entry| entry as u8);
        match *self {
            Entry::Property(property) => [1, property, 0, 0],
            Entry::Name(name) => [2, name, 0, 0],
            Entry::Not(phi) => [3, node(phi), 0, 0],
            Entry::Both(phi, psi) => [4, node(phi), node(psi), 0],
            Entry::After(axis, phi) => [5, axis, node(phi), 0],
            Entry::Compare(Comparison::Same, channel, alpha, beta) => [6, channel, path(alpha), path(beta)],
            Entry::Compare(Comparison::Differ, channel, alpha, beta) => [7, channel, path(alpha), path(beta)],
            Entry::Step(axis, alpha) => [8, axis, path(alpha), 0],
            Entry::Jump(name, alpha) => [9, name, path(alpha), 0],
            Entry::Test(phi, alpha) => [10, node(phi), path(alpha), 0],
            Entry::Fork(alpha, beta) => [11, path(alpha), path(beta), 0],
            Entry::Either(phi, psi) => [12, node(phi), node(psi), 0],
        }
    }
}

impl Pattern {
    /// The pattern file's bytes.
    pub fn to_bytes(&self) -> Vec<u8> {
        let mut bytes = MARK.to_vec();
        bytes.extend(FORMAT_VERSION.to_le_bytes());
        bytes.push(self.entries.len() as u8);
        bytes.extend(self.entries.iter().flat_map(Entry::to_bytes));
        bytes
    }
}
