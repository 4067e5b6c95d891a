//! Judging a model: refusals 9 to 14, 28 and 27, then where the root holds.

use super::evaluate::root_nodes;
use super::{body, pattern, refused};
use oracle::finding::Refusal;

/// A data model of at most 64 nodes.
pub struct Model<'a> {
    /// Property set and values, as the file has them.
    records: &'a [[u8; 12]],
    names: Names,
    /// By axis and node, the set of nodes that the axis leads from to this node.
    predecessors: [[u64; 64]; 8],
}

/// The names that a model lists.
pub struct Names {
    /// The node of each name, 0 if it isn't listed.
    named: [u8; 128],
    /// The names that are listed, as a set of bits.
    listed: u128,
}

/// The set of nodes where the root holds, or refusals 1 to 14, 28 and 27.
pub fn judge(bytes: &[u8], model: &[u8], area: &mut [u8]) -> Result<u64, Refusal> {
    let entries = pattern::parse(bytes)?;
    let (sets, _) = area.as_chunks_mut();
    let sets = sets.get_mut(..pattern::node_count(entries)).ok_or(refused(9))?;
    let file = File::parse(model)?;
    let mut model = Model { records: file.records, names: file.names()?, predecessors: [[0; 64]; 8] };
    model.add_edges(file.edges)?;
    model.names.check(pattern::used_names(entries))?;
    let nodes = root_nodes(entries, &model, sets);
    sets.fill([0; 8]);
    Ok(nodes)
}

/// The records of a model file.
pub struct File<'a> {
    pub records: &'a [[u8; 12]],
    names: &'a [[u8; 2]],
    pub edges: &'a [[u8; 3]],
}

impl<'a> File<'a> {
    /// Refusals 10 to 12, or the records.
    pub fn parse(bytes: &'a [u8]) -> Result<File<'a>, Refusal> {
        let (header, rest) = body::<9>(bytes, b"DAT", 10)?;
        let &[_, _, _, _, _, n, m, low, high] = header;
        let (nodes, names, edges) = (n as usize, m as usize, u16::from_le_bytes([low, high]) as usize);
        let (names_at, edges_at) = (12 * nodes, 12 * nodes + 2 * names);
        let fits = rest.len() == edges_at + 3 * edges;
        if nodes == 0 || nodes > 64 || names > 128 || edges > 4096 || !fits {
            return Err(refused(12));
        }
        let (records, _) = rest[..names_at].as_chunks();
        let (names, _) = rest[names_at..edges_at].as_chunks();
        let (edges, _) = rest[edges_at..].as_chunks();
        Ok(File { records, names, edges })
    }

    /// Refusal 13, or the names.
    pub fn names(&self) -> Result<Names, Refusal> {
        let mut names = Names { named: [0; 128], listed: 0 };
        for (place, &[name, node]) in self.names.iter().enumerate() {
            let repeated = names.listed >> (name % 128) & 1 == 1;
            match names.named.get_mut(name as usize) {
                Some(named) if !repeated && (node as usize) < self.records.len() => *named = node,
                _ => return Err(Refusal { number: 13, place: place as u16 }),
            }
            names.listed |= 1 << (name % 128);
        }
        Ok(names)
    }
}

impl Names {
    /// Refusal 27 with the lowest of the names that isn't listed, if there is one.
    fn check(&self, used: u128) -> Result<(), Refusal> {
        match used & !self.listed {
            0 => Ok(()),
            missing => Err(Refusal { number: 27, place: missing.trailing_zeros() as u16 }),
        }
    }
}

/// An edge of a model of so many nodes as a number of from, axis and to, the highest bits first, by which edges rise;
/// or refusal 14.
pub fn rank(&[from, axis, to]: &[u8; 3], place: usize, nodes: usize) -> Result<u16, Refusal> {
    if from as usize >= nodes || axis > 7 || to as usize >= nodes {
        return Err(Refusal { number: 14, place: place as u16 });
    }
    Ok((from as u16) << 9 | (axis as u16) << 6 | to as u16)
}

impl Model<'_> {
    fn add_edges(&mut self, edges: &[[u8; 3]]) -> Result<(), Refusal> {
        let nodes = self.records.len();
        let predecessors = self.predecessors.as_flattened_mut();
        // The least that the next edge may be.
        let mut least = 0;
        for (place, edge) in edges.iter().enumerate() {
            let rank = rank(edge, place, nodes)?;
            if rank < least {
                return Err(Refusal { number: 28, place: place as u16 });
            }
            least = rank + 1;
            predecessors[rank as usize % 512] |= 1 << (rank >> 9);
        }
        Ok(())
    }

    pub fn node_count(&self) -> usize {
        self.records.len()
    }

    /// All nodes.
    pub fn all(&self) -> u64 {
        u64::MAX >> (64 - self.records.len())
    }

    /// The node of a name.
    pub fn node(&self, name: u8) -> u32 {
        self.names.named[name as usize % 128] as u32
    }

    /// The nodes that have a property.
    pub fn with_property(&self, property: u8) -> u64 {
        self.records.iter().rev().fold(0, |nodes, record| {
            let &[a, b, c, d, ..] = record;
            nodes << 1 | (u32::from_le_bytes([a, b, c, d]) >> property & 1) as u64
        })
    }

    /// The four values of each node, 16 bits each.
    pub fn values(&self) -> impl Iterator<Item = u64> + '_ {
        self.records
            .iter()
            .map(|&[_, _, _, _, a, b, c, d, e, f, g, h]| u64::from_le_bytes([a, b, c, d, e, f, g, h]))
    }

    /// By node, the nodes that the axis leads from to it.
    pub fn predecessors(&self, axis: usize) -> &[u64; 64] {
        &self.predecessors[axis % 8]
    }
}
