//! Where a text holds in a model, said of the text alone, without entries: a row of a path is the composition of its
//! parts, as source 000 has it.

use super::{NodeText, PartText};
use crate::model::{Model, NodeSet};
use crate::pattern::Comparison;

/// Where a path leads: for each node the set of its ends.
type Relation = Vec<NodeSet>;

/// Where a node text holds.
pub fn holds(text: &NodeText, model: &Model) -> NodeSet {
    let all = where_is(model, |_| true);
    match text {
        NodeText::Property(property) => {
            where_is(model, |node| model.nodes[node].properties >> property & 1 == 1)
        }
        NodeText::Name(name) => 1 << model.node_of(*name),
        NodeText::Not(phi) => all & !holds(phi, model),
        NodeText::Both(phi, psi) => holds(phi, model) & holds(psi, model),
        NodeText::Either(phi, psi) => holds(phi, model) | holds(psi, model),
        NodeText::After(axis, phi) => {
            let (axis, phi) = (steps(*axis, model), holds(phi, model));
            where_is(model, |node| axis[node] & phi != 0)
        }
        NodeText::Compare(comparison, channel, left, right) => {
            let (left, right) = (leads(left, model), leads(right, model));
            let value = |node: usize| model.nodes[node].values[usize::from(*channel)];
            let compare = |(one, other): (usize, usize)| match comparison {
                Comparison::Same => value(one) == value(other),
                Comparison::Differ => value(one) != value(other),
            };
            let ends = |set: NodeSet| (0..model.nodes.len()).filter(move |node| set >> node & 1 == 1);
            where_is(model, |node| {
                let mut pairs =
                    ends(left[node]).flat_map(|one| ends(right[node]).map(move |other| (one, other)));
                pairs.any(compare)
            })
        }
    }
}

/// Where a row leads: its parts composed, and from each node to itself if it has none.
fn leads(row: &[PartText], model: &Model) -> Relation {
    let itself = (0..model.nodes.len()).map(|node| 1 << node).collect();
    row.iter().fold(itself, |before, part| composed(&before, &part_leads(part, model)))
}

fn part_leads(part: &PartText, model: &Model) -> Relation {
    let nodes = 0..model.nodes.len();
    match part {
        PartText::Step(axis) => steps(*axis, model),
        PartText::Jump(name) => nodes.map(|_| 1 << model.node_of(*name)).collect(),
        PartText::Test(phi) => {
            let phi = holds(phi, model);
            nodes.map(|node| phi & 1 << node).collect()
        }
        PartText::Brace(left, right) => {
            let (left, right) = (leads(left, model), leads(right, model));
            left.into_iter().zip(right).map(|(left, right)| left | right).collect()
        }
    }
}

fn steps(axis: u8, model: &Model) -> Relation {
    let mut steps = vec![0; model.nodes.len()];
    for edge in model.edges.iter().filter(|edge| edge.1 == axis) {
        steps[usize::from(edge.0)] |= 1 << edge.2;
    }
    steps
}

/// To wherever the second leads from where the first does.
fn composed(first: &Relation, second: &Relation) -> Relation {
    let from = |ends: &NodeSet| {
        let led = second.iter().enumerate().filter(|(node, _)| ends >> node & 1 == 1);
        led.fold(0, |set, (_, ends)| set | ends)
    };
    first.iter().map(from).collect()
}

/// The nodes for which the question is answered yes.
fn where_is(model: &Model, question: impl Fn(usize) -> bool) -> NodeSet {
    (0..model.nodes.len()).filter(|&node| question(node)).fold(0, |set, node| set | 1 << node)
}
