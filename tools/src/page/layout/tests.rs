use super::forest::{Tree, trees};
use super::{Layout, Need, Rect, Shape, Side, layout};
use oracle::random::Random;

type Edges = Vec<(usize, usize)>;

fn needs(random: &mut Random, nodes: usize) -> Vec<Need> {
    let mut size = |first, last| random.between(first, last) as f64;
    (0..nodes).map(|_| Need { width: size(60, 200), height: size(40, 160), beside: size(0, 60) }).collect()
}

/// Each node after the first has an edge with one before it, or rarely none.
fn forest(random: &mut Random, nodes: usize, rarely: usize) -> Edges {
    let mut edges = Edges::new();
    for node in 1..nodes {
        let other = random.below(node);
        if !random.once_in(rarely) {
            edges.push(if random.once_in(2) { (node, other) } else { (other, node) });
        }
    }
    edges
}

/// The room that a node takes: its box, and its loops beside it.
fn room(layout: &Layout, needs: &[Need], node: usize) -> Rect {
    layout.boxes[node].with(layout.loops[node], needs[node].beside * layout.unit)
}

fn overlap(a: &Rect, b: &Rect) -> bool {
    a.left < b.right() && b.left < a.right() && a.top < b.bottom() && b.top < a.bottom()
}

fn assert_apart(layout: &Layout, needs: &[Need]) {
    let rooms: Vec<Rect> = (0..needs.len()).map(|node| room(layout, needs, node)).collect();
    for (node, a) in rooms.iter().enumerate() {
        let other = rooms[node + 1..].iter().find(|b| overlap(a, b));
        assert_eq!(other, None, "node {node} at {a:?}");
        let inside =
            a.left >= 0.0 && a.top >= 0.0 && a.right() <= layout.width && a.bottom() <= layout.height;
        assert!(inside, "node {node} at {a:?} is outside of the picture");
        let place = layout.boxes[node];
        assert!(place.width >= needs[node].width && place.height >= needs[node].height);
    }
}

/// Where the box's middle is across the growth of its tree, and where the box begins and ends along it.
fn position(layout: &Layout, node: usize) -> (f64, f64, f64) {
    let place = layout.boxes[node];
    let (x, y) = place.centre();
    match layout.loops[node] {
        Side::Below => (y, place.left, place.right()),
        _ => (x, place.top, place.bottom()),
    }
}

fn assert_tidy(layout: &Layout) {
    for parent in 0..layout.boxes.len() {
        let children = (0..layout.boxes.len()).filter(|&node| layout.parents[node] == Some(parent));
        let places: Vec<_> = children.map(|child| position(layout, child)).collect();
        let (middle, _, end) = position(layout, parent);
        assert!(places.iter().all(|place| place.1 > end), "a child beside or before node {parent}");
        let first = places.iter().map(|place| place.0).fold(f64::INFINITY, f64::min);
        let last = places.iter().map(|place| place.0).fold(f64::NEG_INFINITY, f64::max);
        assert!(places.is_empty() || ((first + last) / 2.0 - middle).abs() < 1e-6, "node {parent}");
    }
}

#[test]
fn trees_and_forests_are_tidy_and_no_boxes_overlap() {
    for number in 0..600 {
        let random = &mut Random::new(7, number);
        let (nodes, rarely) = (random.between(1, 64), random.pick(&[2, 8, 1000]));
        let (needs, mut edges) = (needs(random, nodes), forest(random, nodes, rarely));
        let trees = nodes - edges.len();
        edges.extend(edges.clone().into_iter().map(|(from, to)| (to, from)));
        edges.push((nodes - 1, nodes - 1));
        let layout = layout(&needs, &edges);
        assert_eq!(layout.shape, Shape::Trees(trees));
        assert_apart(&layout, &needs);
        assert_tidy(&layout);
    }
}

#[test]
fn on_a_circle_no_boxes_overlap() {
    for number in 0..200 {
        let random = &mut Random::new(8, number);
        let nodes = random.between(3, 64);
        let (needs, mut edges) = (needs(random, nodes), forest(random, nodes, 1000));
        edges.extend([(0, 1), (1, 2), (2, 0)]);
        let layout = layout(&needs, &edges);
        assert_eq!(layout.shape, Shape::Circle);
        assert_apart(&layout, &needs);
    }
}

#[test]
fn a_cycle_is_no_tree_in_whatever_direction_its_edges_lead() {
    assert!(trees(3, &[(0, 1), (1, 2), (2, 0)]).is_none());
    assert!(trees(4, &[(0, 1), (0, 2), (1, 3), (2, 3)]).is_none());
    assert!(trees(4, &[(3, 1), (1, 2), (3, 2)]).is_none());
}

#[test]
fn loops_and_several_edges_between_two_nodes_are_no_cycle() {
    let leaf = |node| Tree { node, children: Vec::new() };
    let pair = Tree { node: 0, children: vec![leaf(1)] };
    assert_eq!(trees(2, &[(0, 0), (0, 1), (0, 1), (1, 1), (1, 0)]), Some(vec![pair]));
    assert_eq!(trees(2, &[(1, 1)]), Some(vec![leaf(0), leaf(1)]));
    assert_eq!(trees(1, &[]), Some(vec![leaf(0)]));
}

#[test]
fn the_root_is_the_lowest_node_that_no_edge_leads_to() {
    let root = |edges: &[(usize, usize)]| trees(3, edges).map(|trees| trees[0].node);
    assert_eq!(root(&[(2, 1), (1, 0)]), Some(2));
    assert_eq!(root(&[(1, 0), (2, 0)]), Some(1));
    assert_eq!(root(&[(2, 2), (2, 1), (1, 0)]), Some(2));
    assert_eq!(root(&[(0, 1), (1, 0), (1, 2), (2, 1)]), Some(0));
}

#[test]
fn many_leaves_stand_below_one_another() {
    let need = Need { width: 100.0, height: 50.0, beside: 0.0 };
    let star = |leaves: usize| (1..=leaves).map(|leaf| (0, leaf)).collect::<Edges>();
    let chain: Edges = (1..64).map(|node| (node - 1, node)).collect();
    let wide = layout(&[need; 64], &star(63));
    assert!(wide.height > 10.0 * wide.width);
    let few = layout(&[need; 6], &star(5));
    assert!(few.width > few.height);
    let deep = layout(&[need; 64], &chain);
    assert!(deep.height > 10.0 * deep.width);
}
