//! Reads a model off a branch that has no step left to take.

use super::branch::Branch;
use super::shape::names;
use crate::model::{Edge, MAX_EDGES, MAX_NODES, Model, Node};
use crate::pattern::Entry;
use crate::tableau::line::Line;
use std::collections::BTreeSet;

impl Branch<'_> {
    /// The kept names as nodes, with the edges, properties and values that the lines tell. Every name of the
    /// pattern is listed: one that no line has may be any node, and is node 0. `None` if a model file has no room
    /// for it.
    pub fn model(&self) -> Option<Model> {
        let mut kept: Vec<u8> = Vec::new();
        for name in self.lines.iter().flat_map(|&line| names(line)).flatten() {
            let name = self.aliases.kept(name);
            if !kept.contains(&name) {
                kept.push(name);
            }
        }
        let node_of = |name: u8| kept.iter().position(|&other| other == self.aliases.kept(name));
        let used = self.setting.pattern.names().into_iter();
        let model = Model {
            nodes: kept.iter().map(|&name| self.node(name)).collect(),
            names: used.map(|name| (name, node_of(name).unwrap_or(0) as u8)).collect(),
            edges: self.edges(node_of),
        };
        (model.nodes.len() <= MAX_NODES && model.edges.len() <= MAX_EDGES).then_some(model)
    }

    /// The properties that the kept name has, and values that it shares with just those said to be the same.
    fn node(&self, kept: u8) -> Node {
        let property = |line: &Line| match *line {
            Line::Has { holds: true, name, entry } if self.aliases.kept(name) == kept => {
                match self.setting.pattern.entries[entry] {
                    Entry::Property(property) => Some(1 << property),
                    _ => None,
                }
            }
            _ => None,
        };
        Node {
            properties: self.lines.iter().filter_map(property).fold(0, |set, bit| set | bit),
            values: std::array::from_fn(|channel| u16::from(self.values.class(channel as u8, kept))),
        }
    }

    /// The axis lines between nodes, each once and rising.
    fn edges(&self, node_of: impl Fn(u8) -> Option<usize>) -> Vec<Edge> {
        let mut edges = BTreeSet::new();
        for line in &self.lines {
            if let Line::Edge { axis, from, to } = *line
                && let (Some(from), Some(to)) = (node_of(from), node_of(to))
            {
                edges.insert((from as u8, axis, to as u8));
            }
        }
        edges.into_iter().collect()
    }
}
