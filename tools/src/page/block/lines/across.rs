//! Lines across a circle. They are pulled towards its middle as far as it takes to miss other boxes.

use super::curve::{Line, Point};
use super::{FAN, READABLE, Rank};
use crate::page::layout::{Layout, Rect};

/// What share of the way to the middle of a large circle its lines are pulled at least.
const INWARDS: f64 = 0.25;
/// By how much more a line is pulled that meets a box, and up to which share.
const FURTHER: f64 = 0.05;
const FURTHEST: f64 = 1.2;
/// How far apart lines between two nodes are, as shares of the usual.
const APART: [f64; 3] = [1.0, 0.75, 0.5];
/// The room between a line and the boxes that it passes.
const CLEAR: f64 = 10.0;
/// Half the room of a label.
const LABEL: Point = (6.0, 8.0);
/// Where the label of a line stands on it: not where many of them meet.
const OFF_CENTRE: f64 = 0.38;

/// How the lines between two nodes go: what share of the way to the middle they are pulled, and how far apart
/// they are, as a share of the usual.
#[derive(Clone, Copy)]
pub struct Course {
    pull: f64,
    apart: f64,
}

/// The course of all lines between two nodes that misses other boxes, or else meets the least: pulled as far
/// as it takes, and narrower if that isn't enough.
pub fn course(circle: &Layout, pair: (usize, usize), of: usize) -> Course {
    let first = if circle.boxes.len() > READABLE { INWARDS } else { 0.0 };
    let steps = ((FURTHEST - first) / FURTHER) as usize;
    let pulls = |apart| (0..=steps).map(move |step| Course { pull: first + step as f64 * FURTHER, apart });
    let mut best = (usize::MAX, Course { pull: first, apart: 1.0 });
    for course in APART.into_iter().flat_map(pulls) {
        let lines = (0..of).map(|number| across(circle, pair, Rank { number, of }, course));
        let hits = lines.map(|line| hits(circle, pair, &line)).sum();
        if hits < best.0 {
            best = (hits, course);
        }
        if hits == 0 {
            break;
        }
    }
    best.1
}

/// A line from one box to another, bent by its rank and the course of all.
pub fn across(circle: &Layout, pair: (usize, usize), rank: Rank, Course { pull, apart }: Course) -> Line {
    let (one, other) = (&circle.boxes[pair.0], &circle.boxes[pair.1]);
    let ((x, y), (end_x, end_y)) = (one.centre(), other.centre());
    let (width, height) = (end_x - x, end_y - y);
    let length = width.hypot(height);
    let fan = (FAN * circle.unit).min(0.6 * length / rank.of as f64);
    let bend = 2.0 * rank.offset(fan * apart) / length;
    let (half_x, half_y) = ((x + end_x) / 2.0, (y + end_y) / 2.0);
    let middle = circle.middle();
    let pulled = (pull * (middle.0 - half_x), pull * (middle.1 - half_y));
    let control = (half_x + pulled.0 - bend * height, half_y + pulled.1 + bend * width);
    Line::new(&[border(one, control), control, border(other, control)], OFF_CENTRE)
}

/// Where the way from the middle of a box towards a place leaves the box.
fn border(place: &Rect, towards: Point) -> Point {
    let (x, y) = place.centre();
    let (width, height) = (towards.0 - x, towards.1 - y);
    let share = (place.width / 2.0 / width.abs()).min(place.height / 2.0 / height.abs());
    if share.is_finite() { (x + share * width, y + share * height) } else { (x, y) }
}

/// At how many places the line or its label meets boxes that it doesn't belong to.
fn hits(circle: &Layout, pair: (usize, usize), line: &Line) -> usize {
    let foreign = |node: &usize| *node != pair.0 && *node != pair.1;
    let boxes: Vec<&Rect> = (0..circle.boxes.len()).filter(foreign).map(|node| &circle.boxes[node]).collect();
    let meets = |place: Point, room: Point| boxes.iter().any(|other| other.is_near(place, room));
    let label = meets(line.label(), (LABEL.0 * circle.unit, LABEL.1 * circle.unit));
    line.places().filter(|&place| meets(place, (CLEAR, CLEAR))).count() + usize::from(label)
}
