//! Judging a model: `file` reads it, `holds` says at which nodes each entry holds, and this file gives
//! the finding. `order` puts an older one in order.

mod file;
mod holds;
mod order;

pub use file::{
    EDGE_BYTES, HEADER_BYTES, MAX_EDGES, MAX_NAMES, MAX_NODES, NAME_BYTES, NODE_BYTES, parse, parse_old,
};
pub use holds::{NodeSet, node_sets, path_ends, where_holds};
pub use order::{in_order, order};

use crate::finding::{Finding, Refusal};
use crate::pattern::{self, Pattern};

/// What judging a model wants of the working area for a node entry, in bytes.
const NODE_ENTRY_AREA: usize = 8;

/// The working area that is enough for every pattern, in bytes: that for 255 node entries.
pub const AREA: usize = 2040;

/// A finite data model as a model file gives it.
#[derive(Clone, Debug, PartialEq, Eq)]
pub struct Model {
    pub nodes: Vec<Node>,
    /// Name records in file order: (name, node).
    pub names: Vec<(u8, u8)>,
    /// Edge records in file order.
    pub edges: Vec<Edge>,
}

/// (from, axis, to). Edges compare as Job 3 has it: "by from, then axis, then to, compared as numbers".
pub type Edge = (u8, u8, u8);

#[derive(Clone, Copy, Debug, PartialEq, Eq, Default)]
pub struct Node {
    pub properties: u32,
    pub values: [u16; 4],
}

/// The working area that judging a model of a pattern wants, in bytes. Job 5: "It shall want 8 bytes for each node
/// entry of the pattern, and zero just those."
pub fn area(pattern: &Pattern) -> usize {
    NODE_ENTRY_AREA * pattern.node_entries()
}

/// The same of a pattern file; none for one that is refused.
pub fn area_wanted(pattern: &[u8]) -> usize {
    pattern::parse(pattern).map_or(0, |pattern| area(&pattern))
}

/// Judging a model as document 01 and Jobs 1, 3, 5 and 6 state it, with what it does to the working area.
pub fn judge(pattern: &[u8], model: &[u8], area: &mut [u8]) -> Finding {
    judge_by(parse, pattern, model, area)
}

/// The same of an older model file, with Job 3's order left out and Job 1's names kept: what Job 4 says that every
/// pattern gets on the new file too.
pub fn judge_old(pattern: &[u8], old: &[u8], area: &mut [u8]) -> Finding {
    judge_by(parse_old, pattern, old, area)
}

fn judge_by(parse: Parse, pattern: &[u8], model: &[u8], lent: &mut [u8]) -> Finding {
    match admit(parse, pattern, model, lent.len()) {
        Ok((pattern, model)) => {
            lent[..area(&pattern)].fill(0);
            finding(&pattern, &model)
        }
        Err(refusal) => Finding::Refused(refusal),
    }
}

/// The model of a file, or what is refused of it.
type Parse = fn(&[u8]) -> Result<Model, Refusal>;

/// Refusals 1 to 14, 28 and 27 in their order: the pattern, the area, the model, the pattern's names in it.
fn admit(parse: Parse, pattern: &[u8], model: &[u8], lent: usize) -> Result<(Pattern, Model), Refusal> {
    let pattern = pattern::parse(pattern)?;
    if lent < area(&pattern) {
        return Err(Refusal { number: 9, place: 0 });
    }
    let model = parse(model)?;
    check_names(&pattern, &model)?;
    Ok((pattern, model))
}

/// Job 1: "27, after every 14 check, when the model doesn't list a name of the pattern, place the lowest such
/// name"; Job 3: "27 follows all edge records."
pub fn check_names(pattern: &Pattern, model: &Model) -> Result<(), Refusal> {
    match pattern.names().into_iter().find(|&name| !model.lists(name)) {
        Some(name) => Err(Refusal { number: 27, place: name.into() }),
        None => Ok(()),
    }
}

/// Met or unmet, of a model that lists the pattern's names: the lowest node where the root holds, and the number
/// of such nodes.
pub fn finding(pattern: &Pattern, model: &Model) -> Finding {
    found(*node_sets(pattern, model).last().expect("a pattern has a root"))
}

/// The finding of a root that holds at these nodes.
pub fn found(nodes: NodeSet) -> Finding {
    if nodes == 0 {
        return Finding::Unmet;
    }
    Finding::Met { lowest: nodes.trailing_zeros() as u16, number: nodes.count_ones() as u16 }
}

impl Model {
    /// Whether a record has the name.
    pub fn lists(&self, name: u8) -> bool {
        self.names.iter().any(|record| record.0 == name)
    }

    /// The node of a name: that of its record; "node 0 stands in only for names that the pattern doesn't use".
    pub fn node_of(&self, name: u8) -> usize {
        self.names.iter().find(|record| record.0 == name).map_or(0, |record| record.1 as usize)
    }
}
