//! Tidy trees: a level's boxes in a row, each parent centred over its children, subtrees as near as their
//! contours let them. Depth is the direction in which a tree grows, breadth the one across it.

use super::forest::Tree;
use super::{FITTED, Layout, MARGIN, Need, Rect, Shape, Side};

/// The room between boxes of one level.
const BETWEEN: f64 = 28.0;
/// The least room between levels; up to three times that where lines would be steeper than this share of the
/// breadth.
const LANE: f64 = 76.0;
const STEEPEST: f64 = 0.08;
/// A tree with up to so many leaves grows downwards.
const FEW_LEAVES: usize = 6;
/// Trees stand in rows that are up to so wide.
const ROW: f64 = 1000.0;

/// What is wider than the page by this is drawn for being fitted to it; not if that makes it too small.
const WIDE: f64 = 1.5;
const WIDEST: f64 = 6.0;

/// A subtree, its root at breadth 0.
#[derive(Default)]
struct Branch {
    /// Each node, its level and the breadth of its centre.
    places: Vec<(usize, usize, f64)>,
    /// By level: from where to where its boxes go.
    contour: Vec<(f64, f64)>,
}

/// A tree by itself, its corner at the origin.
struct Placed {
    boxes: Vec<(usize, Rect)>,
    width: f64,
    height: f64,
}

/// The trees one after the other, in rows. If they are wide, loops and the margin are larger.
pub fn rows(needs: &[Need], trees: &[Tree]) -> Layout {
    let layout = rows_by(needs, trees, 1.0);
    let unit = layout.width / FITTED;
    if !(WIDE..=WIDEST).contains(&unit) {
        return layout;
    }
    let needs: Vec<Need> = needs.iter().map(|need| Need { beside: need.beside * unit, ..*need }).collect();
    rows_by(&needs, trees, unit)
}

fn rows_by(needs: &[Need], trees: &[Tree], unit: f64) -> Layout {
    let margin = MARGIN * unit;
    let mut layout = Layout {
        shape: Shape::Trees(trees.len()),
        boxes: vec![Rect::default(); needs.len()],
        parents: vec![None; needs.len()],
        loops: vec![Side::Right; needs.len()],
        width: 0.0,
        height: 0.0,
        unit,
    };
    let (mut left, mut top) = (margin, margin);
    for tree in trees {
        let down = tree.leaves() <= tree.levels().max(FEW_LEAVES);
        let placed = placed(tree, needs, down);
        if left > margin && left + placed.width > ROW {
            (left, top) = (margin, layout.height + BETWEEN);
        }
        for &(node, place) in &placed.boxes {
            layout.boxes[node] = place.moved(left, top);
            layout.loops[node] = if down { Side::Right } else { Side::Below };
        }
        set_parents(tree, &mut layout.parents);
        left += placed.width + BETWEEN;
        layout.width = layout.width.max(left - BETWEEN + margin);
        layout.height = layout.height.max(top + placed.height);
    }
    layout.height += margin;
    layout
}

fn set_parents(tree: &Tree, parents: &mut [Option<usize>]) {
    for child in &tree.children {
        parents[child.node] = Some(tree.node);
        set_parents(child, parents);
    }
}

fn placed(tree: &Tree, needs: &[Need], down: bool) -> Placed {
    let sizes: Vec<(f64, f64)> = needs.iter().map(|need| turned(down, (need.width, need.height))).collect();
    let branch = branch(tree, &|node| (-sizes[node].0 / 2.0, sizes[node].0 / 2.0 + needs[node].beside));
    let first = branch.contour.iter().map(|side| side.0).fold(0.0, f64::min);
    let last = branch.contour.iter().map(|side| side.1).fold(0.0, f64::max);
    let bands = bands(&branch, &sizes, (STEEPEST * (last - first)).clamp(LANE, 3.0 * LANE));
    let boxed = |&(node, level, centre): &(usize, usize, f64)| {
        let (start, depth) = bands[level];
        let breadth = sizes[node].0;
        let (left, top) = turned(down, (centre - breadth / 2.0 - first, start));
        let (width, height) = turned(down, (breadth, depth));
        (node, Rect { left, top, width, height })
    };
    let end = bands.last().map_or(0.0, |(start, depth)| start + depth);
    let (width, height) = turned(down, (last - first, end));
    Placed { boxes: branch.places.iter().map(boxed).collect(), width, height }
}

/// Breadth and depth for horizontal and vertical, or the other way round.
fn turned(down: bool, (breadth, depth): (f64, f64)) -> (f64, f64) {
    if down { (breadth, depth) } else { (depth, breadth) }
}

/// By level: where it begins, and its depth. Levels are so far apart.
fn bands(branch: &Branch, sizes: &[(f64, f64)], lane: f64) -> Vec<(f64, f64)> {
    let depth = |level: usize| {
        let nodes = branch.places.iter().filter(|place| place.1 == level);
        nodes.map(|place| sizes[place.0].1).fold(0.0, f64::max)
    };
    let depths = (0..branch.contour.len()).map(depth);
    let starts = depths.scan(0.0, |start, depth| {
        let band = (*start, depth);
        *start += depth + lane;
        Some(band)
    });
    starts.collect()
}

/// The subtree, of whose nodes `sides` gives how far they go to both sides of their centres.
fn branch(tree: &Tree, sides: &impl Fn(usize) -> (f64, f64)) -> Branch {
    let (mut below, mut centres) = (Branch::default(), Vec::new());
    for child in &tree.children {
        let child = branch(child, sides);
        let centre = below.room_for(&child);
        below.join(child, centre);
        centres.push(centre);
    }
    let middle = centres.first().zip(centres.last()).map_or(0.0, |(first, last)| (first + last) / 2.0);
    let nodes = below.places.into_iter().map(|(node, level, centre)| (node, level + 1, centre - middle));
    let levels = below.contour.into_iter().map(|(first, last)| (first - middle, last - middle));
    Branch {
        places: [(tree.node, 0, 0.0)].into_iter().chain(nodes).collect(),
        contour: [sides(tree.node)].into_iter().chain(levels).collect(),
    }
}

impl Branch {
    /// The nearest place behind these subtrees for the root of another.
    fn room_for(&self, other: &Branch) -> f64 {
        let levels = self.contour.iter().zip(&other.contour);
        let nearest = levels.map(|(side, others)| side.1 + BETWEEN - others.0);
        nearest.reduce(f64::max).unwrap_or(0.0)
    }

    /// Takes in another subtree, with its root at the place.
    fn join(&mut self, other: Branch, place: f64) {
        self.places.extend(other.places.iter().map(|&(node, level, centre)| (node, level, centre + place)));
        for (level, (first, last)) in other.contour.into_iter().enumerate() {
            match self.contour.get_mut(level) {
                Some(side) => side.1 = last + place,
                None => self.contour.push((first + place, last + place)),
            }
        }
    }
}
