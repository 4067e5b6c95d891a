//! A model explained: its nodes, where each node entry holds, and the finding.

use super::formula::Formula;
use super::wording::{counts, joined};
use super::{Conclusion, Explained, refusal};
use crate::finding::Finding;
use crate::model::{Model, check_names, finding, parse, where_holds};
use crate::pattern::{MAX_AXIS, MAX_NAME, MAX_PROPERTY, Pattern};

pub(super) fn explain(pattern: &Pattern, formula: &Formula, bytes: &[u8]) -> Explained {
    let model = match parse(bytes) {
        Ok(model) => model,
        Err(refused) => {
            return Explained { body: String::new(), conclusion: refusal::of_model(bytes, refused) };
        }
    };
    if let Err(refused) = check_names(pattern, &model) {
        let conclusion = refusal::of_names(pattern, &model, refused);
        return Explained { body: format!("{}\n", nodes(&model)), conclusion };
    }
    let sets = where_holds(pattern, &model);
    let body = format!("{}{}\n", nodes(&model), holding(pattern, formula, &sets));
    Explained { body, conclusion: conclusion(finding(pattern, &model), &sets[formula.root()]) }
}

fn nodes(model: &Model) -> String {
    let counts = counts(model.nodes.len(), model.names.len(), model.edges.len());
    let mut text = format!("Model of {counts}:\n");
    for number in 0..model.nodes.len() {
        let named = lettered('n', &names(model, number));
        let named = if named.is_empty() { named } else { format!("named {named}") };
        let values = format!("values {}", values(model, number));
        let parts = [lettered('p', &properties(model, number)), values, named, edges(model, number)];
        let parts: Vec<String> = parts.into_iter().filter(|part| !part.is_empty()).collect();
        text += &format!("  node {number}: {}\n", parts.join("; "));
    }
    text
}

/// The properties that the node has.
pub fn properties(model: &Model, node: usize) -> Vec<u8> {
    properties_of(model.nodes[node].properties)
}

/// The properties of a set.
pub fn properties_of(set: u32) -> Vec<u8> {
    (0..=MAX_PROPERTY).filter(|property| set >> property & 1 == 1).collect()
}

/// The names of the node's records. Others aren't shown: node 0 stands in only for names that the pattern doesn't
/// use.
pub fn names(model: &Model, node: usize) -> Vec<u8> {
    (0..=MAX_NAME).filter(|&name| model.lists(name) && model.node_of(name) == node).collect()
}

/// Numbers with a letter each, such as `p0 p2`.
pub fn lettered(letter: char, numbers: &[u8]) -> String {
    joined(numbers.iter().map(|number| format!("{letter}{number}")))
}

/// The node's values by channel.
pub fn values(model: &Model, node: usize) -> String {
    joined(model.nodes[node].values.iter().map(u16::to_string))
}

/// The node's successors by axis; nothing if it has none.
pub fn edges(model: &Model, node: usize) -> String {
    let on_axis = |axis: u8| {
        let edges = model.edges.iter().filter(|edge| edge.0 as usize == node && edge.1 == axis);
        let ends = joined(edges.map(|edge| edge.2.to_string()));
        (!ends.is_empty()).then(|| format!("axis {axis} to {ends}"))
    };
    (0..=MAX_AXIS).filter_map(on_axis).collect::<Vec<String>>().join("; ")
}

fn holding(pattern: &Pattern, formula: &Formula, sets: &[Vec<bool>]) -> String {
    let mut text = "Where the node entries hold:\n".to_string();
    for (number, flags) in sets.iter().enumerate().filter(|(number, _)| !pattern.entries[*number].is_path()) {
        let root = if number == formula.root() { " (the root)" } else { "" };
        text += &format!("  e{number}{root} {}: {}\n", formula.text(number), places(flags));
    }
    text
}

/// The nodes whose flag is set.
pub fn places(flags: &[bool]) -> String {
    let nodes: Vec<usize> = (0..flags.len()).filter(|&node| flags[node]).collect();
    match nodes.len() {
        0 => "nowhere".to_string(),
        1 => format!("node {}", nodes[0]),
        all if all == flags.len() => "every node".to_string(),
        _ => format!("nodes {}", joined(nodes.iter().map(usize::to_string))),
    }
}

/// The finding of a root that holds at the nodes whose flag is set.
fn conclusion(finding: Finding, root: &[bool]) -> Conclusion {
    let Finding::Met { number, .. } = finding else {
        return Conclusion::found(finding, "The root holds at no node of this model");
    };
    let places = places(root);
    let meaning = match number {
        1 => format!("The root holds at {places} alone"),
        _ => format!("The root holds at {places}, {number} in number"),
    };
    Conclusion::found(finding, &meaning)
        .with("(The numbers are the lowest node where it holds, and at how many nodes it does.)")
}
