//! The pages of blocks: nodes, edges, where entries hold, and what is said of the picture.

use crate::page;
use crate::parsed::Page;
use oracle::model::{Edge, Model, Node, where_holds};
use oracle::pattern::{self, LONGEST};
use oracle::random::Random;
use oracle::typed::type_pattern;

/// The page of a typed pattern and a block.
fn drawn(text: &str, block: &Model) -> Page {
    page(&type_pattern(text.as_bytes(), LONGEST).expect("a typed pattern"), &block.to_bytes())
}

/// A block of so many nodes and at most so many edges, with all names.
fn by_chance(seed: u64, nodes: usize, edges: usize) -> Model {
    let random = &mut Random::new(9, seed);
    let mut node = || Node {
        properties: random.number() as u32 & random.number() as u32,
        values: [(); 4].map(|_| random.number() as u16),
    };
    let nodes: Vec<Node> = (0..nodes).map(|_| node()).collect();
    let below = |random: &mut Random| random.below(nodes.len()) as u8;
    let names = (0..128).map(|name| (name, below(random))).collect();
    let mut edges: Vec<Edge> =
        (0..edges).map(|_| (below(random), random.below(8) as u8, below(random))).collect();
    edges.sort();
    edges.dedup();
    Model { nodes, names, edges }
}

/// Two nodes: 0 with p0 and n5, and an edge to 1.
fn small() -> Model {
    let nodes = vec![Node { properties: 1, ..Node::default() }, Node::default()];
    Model { nodes, names: vec![(5, 0)], edges: vec![(0, 3, 1)] }
}

/// The texts of a node's cells in the table of nodes, its number left out.
fn cells(page: &Page, node: usize) -> Vec<&str> {
    let id = format!("row{node}");
    let in_row = |parent: usize| page.elements[parent].attribute("id") == id;
    let cells = page.elements.iter().filter(|cell| cell.name == "td" && cell.parent.is_some_and(in_row));
    cells.map(|cell| cell.text.as_str()).collect()
}

/// Items with blanks between them, as a cell has them.
fn listed(items: impl Iterator<Item = String>) -> String {
    let text = items.collect::<Vec<_>>().join(" ");
    if text.is_empty() { "none".to_string() } else { text }
}

#[test]
fn every_node_stands_in_the_table_with_all_that_it_has() {
    for (seed, nodes) in [(1, 1), (2, 5), (3, 64)] {
        let block = by_chance(seed, nodes, 3 * nodes);
        let page = drawn("p0", &block);
        for (number, node) in block.nodes.iter().enumerate() {
            let names = block.names.iter().filter(|record| record.1 as usize == number);
            let properties = (0..32).filter(|property| node.properties >> property & 1 == 1);
            let cells = cells(&page, number);
            assert_eq!(cells[0], listed(names.map(|record| format!("n{}", record.0))));
            assert_eq!(cells[1], listed(properties.map(|property| format!("p{property}"))));
            assert_eq!(cells[2], listed(node.values.iter().map(u16::to_string)));
        }
        assert_eq!(page.by_class("node").len(), nodes);
    }
}

#[test]
fn every_edge_is_drawn_once_and_stands_in_the_table() {
    for (seed, nodes, edges) in [(4, 1, 8), (5, 6, 30), (6, 64, 4096)] {
        let block = by_chance(seed, nodes, edges);
        let page = drawn("p0", &block);
        let in_picture = |title: &&crate::parsed::Element| title.name == "title" && title.depth > 3;
        let titles: Vec<&str> =
            page.elements.iter().filter(in_picture).map(|title| title.text.as_str()).collect();
        let edges = block.edges.iter().map(|(from, axis, to)| format!("axis {axis} from {from} to {to}"));
        assert_eq!(titles, edges.collect::<Vec<_>>());
        let rows: Vec<&str> = (0..nodes).map(|node| cells(&page, node)[3]).collect();
        for (from, axis, to) in &block.edges {
            let mut axes = rows[*from as usize].split("; ");
            let on_axis = axes.find(|part| part.starts_with(&format!("axis {axis} to ")));
            assert!(on_axis.expect("the axis").split(' ').skip(3).any(|end| end == to.to_string()));
        }
        assert_eq!(page.by_class("label").len(), block.edges.len());
    }
}

#[test]
fn just_the_nodes_where_the_root_holds_are_marked() {
    let text = "((p1&<0>p2)|[/1=0])";
    let pattern = pattern::parse(&type_pattern(text.as_bytes(), LONGEST).expect("typed")).expect("a pattern");
    for seed in 10..20 {
        let block = by_chance(seed, 12, 8);
        let page = drawn(text, &block);
        let sets = where_holds(&pattern, &block);
        for (node, &holds) in sets.last().expect("the root").iter().enumerate() {
            let drawn = page.by_id(&format!("node{node}")).expect("the node");
            assert_eq!((drawn.text.contains("root holds"), drawn.has_class("holds")), (holds, holds));
            assert_eq!(cells(&page, node)[4].contains("root holds"), holds);
        }
    }
}

#[test]
fn each_entry_can_be_chosen_and_says_where_it_holds() {
    let page = drawn("([/3=0]&p0)", &small());
    let row = |entry: usize| page.by_id(&format!("e{entry}")).expect("the entry");
    assert_eq!((row(0).attribute("data-nodes"), row(3).attribute("data-nodes")), ("0", "0"));
    assert!(row(0).text.ends_with("leads from 0 to 1"), "{}", row(0).text);
    assert!(row(3).text.ends_with("node 0") && row(3).text.contains("(the root)"), "{}", row(3).text);
    let buttons = page.elements.iter().filter(|button| button.attribute("type") == "radio");
    let values: Vec<&str> = buttons.map(|button| button.attribute("value")).collect();
    assert_eq!(values, ["", "e0 leads on", "e1 holds", "e2 holds", "e3 holds"]);
}

#[test]
fn where_a_name_is_missing_nothing_is_said_to_hold() {
    let page = drawn("((n5&n4)|[@4@9=0])", &small());
    let faults: Vec<&str> = page.by_class("fault").iter().map(|fault| fault.attribute("id")).collect();
    assert_eq!(faults, ["e1", "e4"]);
    assert!(page.by_id("e3").is_some_and(|other| other.text.ends_with("the block has no n9")));
    assert!(page.by_class("fault").iter().all(|fault| fault.text.contains("the block has no n4")));
    let chooses = page.elements.iter().any(|element| element.attribute("type") == "radio");
    assert!(!chooses && !page.text().contains("root holds") && page.by_class("holds").is_empty());
    assert_eq!(page.by_class("node").len(), 2);
}

#[test]
fn what_the_picture_shows_is_said_below_it() {
    let block = small();
    assert!(drawn("p0", &block).text().contains("The block is a tree."));
    let apart = drawn("p0", &Model { edges: Vec::new(), ..block });
    assert!(
        apart.text().contains("The block is a forest of 2 trees.") && apart.by_class("legend").is_empty()
    );
    let tangle = by_chance(30, 10, 300);
    let many = drawn("p0", &tangle);
    assert!(many.text().contains("The block isn't a tree") && many.text().contains("It has many edges"));
    let on_axis = tangle.edges.iter().filter(|edge| edge.1 == 6).count();
    assert!(many.text().contains(&format!("axis 6: {on_axis} edges")));
}
