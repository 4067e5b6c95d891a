//! The lines of edges. Those between the same two nodes are fanned out, so that none hides another.

mod across;
mod curve;
#[cfg(test)]
mod tests;

use crate::page::layout::{Layout, Rect, Shape, Side};
use across::{Course, across, course};
pub use curve::{Line, Point};
use oracle::model::Edge;
use std::collections::BTreeMap;

/// A circle of more nodes than this is large: it isn't readable without being enlarged.
pub const READABLE: usize = 12;

/// The room between lines that are fanned out.
const FAN: f64 = 16.0;
/// How far the innermost loop goes from its box, and how far each further one goes beyond it.
const LOOP: f64 = 22.0;
const FURTHER: f64 = 15.0;
/// Where the label of a line from a parent to a child stands on it: nearer to the child, where lines are
/// apart. Those of a wide fan take turns.
const NEAR_CHILD: f64 = 0.6;
const TURNS: [f64; 3] = [0.42, 0.58, 0.74];
const WIDE: usize = 6;

/// A line among others: its number, from 0, and how many there are.
#[derive(Clone, Copy)]
struct Rank {
    number: usize,
    of: usize,
}

/// Edges by the two nodes that they are between.
type Fans = BTreeMap<(usize, usize), Vec<usize>>;

/// The room that so many loops want beside a box.
pub fn room_for_loops(loops: usize) -> f64 {
    if loops == 0 { 0.0 } else { LOOP + FURTHER * (loops - 1) as f64 + 8.0 }
}

/// The lines of the edges, in their order.
pub fn lines(layout: &Layout, edges: &[Edge]) -> Vec<Line> {
    let fans = fans(layout, edges);
    let by_parent = by_parent(layout, &fans);
    let courses = courses(layout, &fans);
    let (in_fans, on_sides) = (ranks(edges.len(), fans.values()), ranks(edges.len(), by_parent.values()));
    let line = |(number, edge): (usize, &Edge)| {
        let (first, second) = pair(layout, edge);
        let (boxes, side) = ([first, second].map(|node| &layout.boxes[node]), layout.loops[first]);
        let line = if first == second {
            beside(boxes[0], side, in_fans[number], layout.unit)
        } else if layout.parents[second] == Some(first) {
            between_levels(boxes, [on_sides[number], in_fans[number]], side != Side::Below)
        } else {
            across(layout, (first, second), in_fans[number], courses[&(first, second)])
        };
        if edge.0 as usize == first { line } else { line.turned() }
    };
    edges.iter().enumerate().map(line).collect()
}

/// The edges between each two nodes.
fn fans(layout: &Layout, edges: &[Edge]) -> Fans {
    let mut fans = Fans::new();
    for (number, edge) in edges.iter().enumerate() {
        fans.entry(pair(layout, edge)).or_default().push(number);
    }
    fans
}

/// How the lines between each two nodes on a circle go.
fn courses(layout: &Layout, fans: &Fans) -> BTreeMap<(usize, usize), Course> {
    let pairs = fans.iter().filter(|(pair, _)| layout.shape == Shape::Circle && pair.0 != pair.1);
    pairs.map(|(&pair, fan)| (pair, course(layout, pair, fan.len()))).collect()
}

/// The edges between each parent and its children, in the order of the children.
fn by_parent(layout: &Layout, fans: &Fans) -> BTreeMap<usize, Vec<usize>> {
    let mut by_parent: BTreeMap<usize, Vec<usize>> = BTreeMap::new();
    for ((parent, _), fan) in
        fans.iter().filter(|((first, second), _)| layout.parents[*second] == Some(*first))
    {
        by_parent.entry(*parent).or_default().extend(fan);
    }
    by_parent
}

/// The two nodes of an edge: a parent before its child, otherwise the lower one first.
fn pair(layout: &Layout, &(from, _, to): &Edge) -> (usize, usize) {
    let (from, to) = (from as usize, to as usize);
    let turned = layout.parents[from] == Some(to) || layout.parents[to] != Some(from) && to < from;
    if turned { (to, from) } else { (from, to) }
}

/// By edge: its rank in its group, if it has one.
fn ranks<'a>(edges: usize, groups: impl Iterator<Item = &'a Vec<usize>>) -> Vec<Rank> {
    let mut ranks = vec![Rank { number: 0, of: 1 }; edges];
    for group in groups {
        let members = group.iter().enumerate();
        members.for_each(|(number, &edge)| ranks[edge] = Rank { number, of: group.len() });
    }
    ranks
}

impl Rank {
    /// How far the line is from the middle of all, if the next is so far from it.
    fn offset(&self, step: f64) -> f64 {
        (self.number as f64 - (self.of - 1) as f64 / 2.0) * step
    }

    /// The same on a side of this length.
    fn on_side(&self, side: f64) -> f64 {
        self.offset(FAN.min(side / (self.of + 1) as f64))
    }
}

/// The place at a depth and a breadth of a tree that grows downwards or to the right.
fn at(down: bool, depth: f64, breadth: f64) -> Point {
    if down { (breadth, depth) } else { (depth, breadth) }
}

/// A self loop at a side of its box, around those of lower ranks. Those of a large picture are larger by its
/// unit.
fn beside(place: &Rect, side: Side, rank: Rank, unit: f64) -> Line {
    let (x, y) = place.centre();
    let reach = (LOOP + FURTHER * rank.number as f64) * unit;
    let length = if matches!(side, Side::Above | Side::Below) { place.width } else { place.height };
    let half = ((8.0 + 4.0 * rank.number as f64) * unit).min(length / 2.0 - 4.0);
    let wide = half + 6.0 * unit;
    let ends = [(-half, 0.0), (-wide, reach / 0.75), (wide, reach / 0.75), (half, 0.0)];
    let points = ends.map(|(along, out)| match side {
        Side::Left => (place.left - out, y + along),
        Side::Right => (place.right() + out, y + along),
        Side::Above => (x + along, place.top - out),
        Side::Below => (x + along, place.bottom() + out),
    });
    Line::new(&points, 0.5)
}

/// A line from a parent to a child, through the room between their levels. The ranks are those at the
/// parent's side and at the child's.
fn between_levels([parent, child]: [&Rect; 2], [upper, lower]: [Rank; 2], down: bool) -> Line {
    let middle = |place: &Rect, rank: Rank| match (down, place.centre()) {
        (true, (x, _)) => x + rank.on_side(place.width),
        (false, (_, y)) => y + rank.on_side(place.height),
    };
    let (start, end) = (middle(parent, upper), middle(child, lower));
    let (from, to) = if down { (parent.bottom(), child.top) } else { (parent.right(), child.left) };
    let half = (from + to) / 2.0;
    let label = if lower.of > WIDE { TURNS[lower.number % TURNS.len()] } else { NEAR_CHILD };
    Line::new(&[at(down, from, start), at(down, half, start), at(down, half, end), at(down, to, end)], label)
}
