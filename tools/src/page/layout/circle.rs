//! Nodes on a circle, in the order of their numbers: node 0 on top, the others after it clockwise.

use super::{FITTED, Layout, MARGIN, Need, Rect, Shape, Side};
use std::f64::consts::{FRAC_PI_2, TAU};

/// The least room between boxes.
const APART: f64 = 36.0;
/// The radius of the smallest circle, and how much larger the next is.
const SMALLEST: f64 = 130.0;
const LARGER: f64 = 1.03;

/// Above and below the middle, loops stand above and below boxes: where the way to the middle is steeper than
/// this, its height as a share of its length.
const STEEP: f64 = 0.866;

/// The nodes on the smallest circle that keeps their boxes and loops apart.
pub fn around(needs: &[Need]) -> Layout {
    let loops: Vec<Side> = (0..needs.len()).map(|node| outwards(direction(node, needs.len()))).collect();
    let radii = std::iter::successors(Some(SMALLEST), |radius| Some(radius * LARGER));
    let mut circles = radii.map(|radius| {
        let (boxes, unit) = (on_circle(needs, radius), (2.0 * radius / FITTED).max(1.0));
        let with_loops = boxes.iter().zip(loops.iter().zip(needs));
        let with_loops = with_loops.map(|(place, (&side, need))| place.with(side, need.beside * unit));
        (with_loops.collect::<Vec<Rect>>(), boxes, unit)
    });
    let (rooms, boxes, unit) =
        circles.find(|(rooms, ..)| are_apart(rooms)).expect("a circle that is large enough");
    let least = |side: fn(&Rect) -> f64| rooms.iter().map(side).fold(f64::INFINITY, f64::min);
    let most = |side: fn(&Rect) -> f64| rooms.iter().map(side).fold(f64::NEG_INFINITY, f64::max);
    let margin = MARGIN * unit;
    let (left, top) = (least(|room| room.left) - margin, least(|room| room.top) - margin);
    Layout {
        shape: Shape::Circle,
        boxes: boxes.iter().map(|place| place.moved(-left, -top)).collect(),
        parents: vec![None; needs.len()],
        width: most(Rect::right) + margin - left,
        height: most(Rect::bottom) + margin - top,
        loops,
        unit,
    }
}

/// Where a node stands as seen from the middle: how far to the right and down, if the radius is 1.
fn direction(node: usize, nodes: usize) -> (f64, f64) {
    let (sin, cos) = (TAU * node as f64 / nodes as f64 - FRAC_PI_2).sin_cos();
    (cos, sin)
}

fn outwards((right, down): (f64, f64)) -> Side {
    match (right < 0.0, down < 0.0) {
        (_, true) if down < -STEEP => Side::Above,
        (_, false) if down > STEEP => Side::Below,
        (true, _) => Side::Left,
        (false, _) => Side::Right,
    }
}

fn on_circle(needs: &[Need], radius: f64) -> Vec<Rect> {
    let place = |(node, need): (usize, &Need)| {
        let (right, down) = direction(node, needs.len());
        let (left, top) = (radius * right - need.width / 2.0, radius * down - need.height / 2.0);
        Rect { left, top, width: need.width, height: need.height }
    };
    needs.iter().enumerate().map(place).collect()
}

/// Whether each of these is clear of those after it.
fn are_apart(rooms: &[Rect]) -> bool {
    let beside = |a: &Rect, b: &Rect| a.right() + APART <= b.left || a.bottom() + APART <= b.top;
    let clear = |a: &Rect, b: &Rect| beside(a, b) || beside(b, a);
    rooms.iter().enumerate().all(|(number, a)| rooms[number + 1..].iter().all(|b| clear(a, b)))
}
