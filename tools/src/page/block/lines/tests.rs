use super::*;
use crate::page::layout::{Need, layout};

/// The lines of edges between nodes of one size.
fn drawn(nodes: usize, edges: &[Edge]) -> Vec<Line> {
    let ends: Vec<_> = edges.iter().map(|edge| (edge.0 as usize, edge.2 as usize)).collect();
    let need = Need { width: 100.0, height: 60.0, beside: 100.0 };
    lines(&layout(&vec![need; nodes], &ends), edges)
}

#[test]
fn no_line_or_label_hides_another() {
    let both_ways = |axis| [(0, axis, 1), (1, axis, 0), (0, axis, 0)];
    let tree: Vec<Edge> = (0..8).flat_map(both_ways).collect();
    let circle: Vec<Edge> = tree.iter().copied().chain([(1, 0, 2), (2, 0, 0)]).collect();
    for (nodes, edges) in [(2, tree), (3, circle)] {
        let lines = drawn(nodes, &edges);
        for (number, line) in lines.iter().enumerate() {
            let apart = |other: &Line| {
                (line.label().0 - other.label().0).hypot(line.label().1 - other.label().1) > 4.0
                    && line.path() != other.path()
            };
            assert!(lines[number + 1..].iter().all(apart), "edge {:?}", edges[number]);
        }
    }
}

#[test]
fn a_line_goes_from_its_first_node_to_its_second() {
    let lines = drawn(2, &[(0, 0, 1), (1, 0, 0)]);
    let height = |place: Option<Point>| place.expect("a place").1;
    let heights = |line: &Line| (height(line.places().next()), height(line.places().last()));
    let ((down_from, down_to), (up_from, up_to)) = (heights(&lines[0]), heights(&lines[1]));
    assert!(down_from < down_to);
    assert_eq!((up_from, up_to), (down_to, down_from));
}

#[test]
fn lines_across_a_circle_miss_other_boxes() {
    for (width, height) in [(100.0, 60.0), (120.0, 80.0), (170.0, 140.0)] {
        for nodes in 3..=64 {
            let edges: Vec<Edge> = [1, 2]
                .iter()
                .flat_map(|step| (0..nodes).map(move |node| (node, 0, (node + step) % nodes)))
                .collect();
            let ends: Vec<_> = edges.iter().map(|edge| (edge.0 as usize, edge.2 as usize)).collect();
            let layout = layout(&vec![Need { width, height, beside: 0.0 }; nodes as usize], &ends);
            for (edge, line) in edges.iter().zip(lines(&layout, &edges)) {
                let foreign = |node: &usize| *node != edge.0 as usize && *node != edge.2 as usize;
                for node in (0..nodes as usize).filter(foreign) {
                    let meets = |place, room| layout.boxes[node].is_near(place, room);
                    let hidden = line.places().any(|place| meets(place, (0.0, 0.0)));
                    let label = meets(line.label(), (4.0 * layout.unit, 6.0 * layout.unit));
                    assert!(!hidden && !label, "edge {edge:?} and node {node} of {nodes}");
                }
            }
        }
    }
}
