//! The model file: refusals 10 to 14, with 28 or without it, and writing one.

use super::{Edge, Model, Node};
use crate::bytes::{FORMAT_VERSION, u16_at};
use crate::finding::Refusal;
use crate::pattern::{MAX_AXIS, MAX_NAME};

pub const MAX_NODES: usize = 64;
pub const MAX_NAMES: usize = 128;
pub const MAX_EDGES: usize = 4096;

const MARK: &[u8] = b"DAT";
pub const HEADER_BYTES: usize = 9;
pub const NODE_BYTES: usize = 12;
pub const NAME_BYTES: usize = 2;
pub const EDGE_BYTES: usize = 3;

/// Refusals 10 to 14 and 28, or the model.
pub fn parse(bytes: &[u8]) -> Result<Model, Refusal> {
    parse_by(bytes, parse_rising)
}

/// Job 4: "The old file is checked by 10 to 14 without 28." The model has its edges as they stand.
pub fn parse_old(bytes: &[u8]) -> Result<Model, Refusal> {
    parse_by(bytes, parse_edges)
}

/// Refusals 10 to 13 and what is refused of the edge records, or the model.
fn parse_by(bytes: &[u8], edges_of: EdgeCheck) -> Result<Model, Refusal> {
    if bytes.len() < HEADER_BYTES || !bytes.starts_with(MARK) {
        return Err(Refusal { number: 10, place: 0 });
    }
    if u16_at(bytes, 3) != FORMAT_VERSION {
        return Err(Refusal { number: 11, place: 0 });
    }
    let (nodes, names, edges) = (bytes[5] as usize, bytes[6] as usize, u16_at(bytes, 7) as usize);
    let in_range = (1..=MAX_NODES).contains(&nodes) && names <= MAX_NAMES && edges <= MAX_EDGES;
    if !in_range || bytes.len() != HEADER_BYTES + NODE_BYTES * nodes + NAME_BYTES * names + EDGE_BYTES * edges
    {
        return Err(Refusal { number: 12, place: 0 });
    }
    let (node_records, rest) = bytes[HEADER_BYTES..].split_at(NODE_BYTES * nodes);
    let (name_records, edge_records) = rest.split_at(NAME_BYTES * names);
    Ok(Model {
        nodes: node_records.chunks_exact(NODE_BYTES).map(parse_node).collect(),
        names: parse_names(name_records, nodes)?,
        edges: edges_of(edge_records, nodes)?,
    })
}

/// Any 12 bytes are a node: a 32-bit property set, then four 16-bit values.
fn parse_node(record: &[u8]) -> Node {
    let properties = u32::from_le_bytes([record[0], record[1], record[2], record[3]]);
    Node { properties, values: [4, 6, 8, 10].map(|offset| u16_at(record, offset)) }
}

/// "13, place the name record: name or node out of range, or a name that an earlier record has."
fn parse_names(records: &[u8], nodes: usize) -> Result<Vec<(u8, u8)>, Refusal> {
    let mut names: Vec<(u8, u8)> = Vec::with_capacity(records.len() / NAME_BYTES);
    for record in records.chunks_exact(NAME_BYTES) {
        let (name, node) = (record[0], record[1]);
        let repeated = names.iter().any(|earlier| earlier.0 == name);
        if name > MAX_NAME || node as usize >= nodes || repeated {
            return Err(Refusal { number: 13, place: names.len() as u16 });
        }
        names.push((name, node));
    }
    Ok(names)
}

/// The edges of records in a model of so many nodes.
type EdgeCheck = fn(&[u8], usize) -> Result<Vec<Edge>, Refusal>;

/// Refusal 14, or the edges.
fn parse_edges(records: &[u8], nodes: usize) -> Result<Vec<Edge>, Refusal> {
    let records = records.chunks_exact(EDGE_BYTES).enumerate();
    records.map(|(place, record)| parse_edge(record, place, nodes)).collect()
}

/// Refusals 14 and 28, or the edges. Job 3: "28, in each edge record after its 14 check, when it doesn't come after
/// the record before it, place that record".
fn parse_rising(records: &[u8], nodes: usize) -> Result<Vec<Edge>, Refusal> {
    let mut edges: Vec<Edge> = Vec::with_capacity(records.len() / EDGE_BYTES);
    for (place, record) in records.chunks_exact(EDGE_BYTES).enumerate() {
        let edge = parse_edge(record, place, nodes)?;
        if edges.last().is_some_and(|before| edge <= *before) {
            return Err(Refusal { number: 28, place: place as u16 });
        }
        edges.push(edge);
    }
    Ok(edges)
}

/// "14, place the edge record: field out of range".
fn parse_edge(record: &[u8], place: usize, nodes: usize) -> Result<Edge, Refusal> {
    let (from, axis, to) = (record[0], record[1], record[2]);
    if from as usize >= nodes || axis > MAX_AXIS || to as usize >= nodes {
        return Err(Refusal { number: 14, place: place as u16 });
    }
    Ok((from, axis, to))
}

impl Model {
    /// The model file's bytes.
    pub fn to_bytes(&self) -> Vec<u8> {
        let mut bytes = MARK.to_vec();
        bytes.extend(FORMAT_VERSION.to_le_bytes());
        bytes.extend([self.nodes.len() as u8, self.names.len() as u8]);
        bytes.extend((self.edges.len() as u16).to_le_bytes());
        for node in &self.nodes {
            bytes.extend(node.properties.to_le_bytes());
            bytes.extend(node.values.iter().flat_map(|value| value.to_le_bytes()));
        }
        bytes.extend(self.names.iter().flat_map(|&(name, node)| [name, node]));
        bytes.extend(self.edges.iter().flat_map(|&(from, axis, to)| [from, axis, to]));
        bytes
    }
}
