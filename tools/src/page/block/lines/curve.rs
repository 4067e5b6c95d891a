//! A Bezier curve with a place for its label.

/// A place: horizontal, vertical.
pub type Point = (f64, f64);

/// Into how many steps a curve is taken apart, to see where it goes.
const STEPS: usize = 64;

/// A Bezier curve by its control points, three or four, and where on it its label stands.
#[derive(Clone, Debug, PartialEq)]
pub struct Line {
    points: Vec<Point>,
    label: Point,
}

impl Line {
    /// The curve, and its label at a share of its way.
    pub fn new(points: &[Point], label: f64) -> Line {
        Line { points: points.to_vec(), label: on_curve(points, label) }
    }

    pub fn turned(mut self) -> Line {
        self.points.reverse();
        self
    }

    /// Where its label stands.
    pub fn label(&self) -> Point {
        self.label
    }

    /// Places on it, from its start to its end.
    pub fn places(&self) -> impl Iterator<Item = Point> {
        (0..=STEPS).map(|step| on_curve(&self.points, step as f64 / STEPS as f64))
    }

    /// The data of its path.
    pub fn path(&self) -> String {
        let points: Vec<String> = self.points.iter().map(|(x, y)| format!("{x:.1} {y:.1}")).collect();
        let curve = if points.len() == 3 { 'Q' } else { 'C' };
        format!("M{}{curve}{}", points[0], points[1..].join(" "))
    }
}

/// The place on a Bezier curve at a share of its way.
fn on_curve(points: &[Point], share: f64) -> Point {
    let between = |one: f64, other: f64| one + (other - one) * share;
    let mut points = points.to_vec();
    for left in (1..points.len()).rev() {
        for at in 0..left {
            let ((x, y), (next_x, next_y)) = (points[at], points[at + 1]);
            points[at] = (between(x, next_x), between(y, next_y));
        }
    }
    points[0]
}
