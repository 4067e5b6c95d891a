//! Tries small models at random, for patterns that the search for a tableau left undecided.

use super::Effort;
use crate::finding::Finding;
use crate::model::{self, Model, Node};
use crate::pattern::{Entry, MAX_AXIS, Pattern};
use crate::random::Random;

const MOST_NODES: usize = 6;

/// A model that meets the pattern, among as many as the budget allows. The watcher is told before each how
/// many were tried.
pub fn guess(pattern: &Pattern, effort: Effort, watch: &mut dyn FnMut(usize)) -> Option<Model> {
    let mut random = Random::new(effort.seed, 0);
    let axes: Vec<u8> = (0..=MAX_AXIS).filter(|&axis| leads_by(pattern, axis)).collect();
    let model = |tried| {
        watch(tried);
        any_model(pattern, &axes, &mut random)
    };
    (0..effort.budget).map(model).find(|model| meets(pattern, model))
}

/// Whether judging the model finds the pattern met.
pub fn meets(pattern: &Pattern, model: &Model) -> bool {
    model::check_names(pattern, model).is_ok()
        && matches!(model::finding(pattern, model), Finding::Met { .. })
}

fn leads_by(pattern: &Pattern, axis: u8) -> bool {
    let leads = |entry: &Entry| matches!(*entry, Entry::After(own, _) | Entry::Step(own, _) if own == axis);
    pattern.entries.iter().any(leads)
}

/// Few nodes and few different values, so that much is the same; just the pattern's names; edges on its axes only,
/// rising as the axes do.
fn any_model(pattern: &Pattern, axes: &[u8], random: &mut Random) -> Model {
    let count = 1 + random.below(MOST_NODES);
    let mut node = || Node {
        properties: random.number() as u32,
        values: std::array::from_fn(|_| random.below(count) as u16),
    };
    let nodes: Vec<Node> = (0..count).map(|_| node()).collect();
    let names = pattern.names().into_iter().map(|name| (name, random.below(count) as u8)).collect();
    let sparseness = 1 + random.below(4);
    let on_axis = |from, axis| (0..count).map(move |to| (from as u8, axis, to as u8));
    let from_node = |from| axes.iter().flat_map(move |&axis| on_axis(from, axis));
    let edges = (0..count).flat_map(from_node).filter(|_| random.once_in(sparseness)).collect();
    Model { nodes, names, edges }
}
