//! Where the nodes of a block stand: as trees if its edges make no cycle, otherwise on a circle.

mod circle;
mod forest;
#[cfg(test)]
mod tests;
mod tree;

/// The margin around the picture.
const MARGIN: f64 = 16.0;

/// About the width of the page that a picture is fitted to.
pub const FITTED: f64 = 720.0;

/// What a node needs: its box, and room for its self loops beside it.
#[derive(Clone, Copy, Debug, PartialEq)]
pub struct Need {
    pub width: f64,
    pub height: f64,
    pub beside: f64,
}

/// A box at its place.
#[derive(Clone, Copy, Debug, Default, PartialEq)]
pub struct Rect {
    pub left: f64,
    pub top: f64,
    pub width: f64,
    pub height: f64,
}

#[derive(Clone, Copy, Debug, PartialEq, Eq)]
pub enum Shape {
    /// So many trees.
    Trees(usize),
    Circle,
}

/// A side of a box. In a tree, loops stand across its growth: right in one that grows downwards, below in one
/// that grows to the right. On a circle they stand outwards.
#[derive(Clone, Copy, Debug, PartialEq, Eq)]
pub enum Side {
    Left,
    Right,
    Above,
    Below,
}

/// The nodes at their places.
#[derive(Clone, Debug)]
pub struct Layout {
    pub shape: Shape,
    /// By node. Boxes may be larger than needed: those of a level of a tree fill it.
    pub boxes: Vec<Rect>,
    /// By node: its parent in its tree.
    pub parents: Vec<Option<usize>>,
    /// By node: at which side of its box its loops stand.
    pub loops: Vec<Side>,
    pub width: f64,
    pub height: f64,
    /// What a pixel is when a circle or a wide tree is fitted to the page: loops and the margin are larger by
    /// that. It is 1 if it isn't drawn for being fitted.
    pub unit: f64,
}

impl Layout {
    /// The middle of all boxes.
    pub fn middle(&self) -> (f64, f64) {
        let count = self.boxes.len() as f64;
        let sum = |side: fn(&Rect) -> f64| self.boxes.iter().map(side).sum::<f64>();
        (sum(|place| place.centre().0) / count, sum(|place| place.centre().1) / count)
    }
}

impl Rect {
    pub fn right(&self) -> f64 {
        self.left + self.width
    }

    pub fn bottom(&self) -> f64 {
        self.top + self.height
    }

    pub fn centre(&self) -> (f64, f64) {
        (self.left + self.width / 2.0, self.top + self.height / 2.0)
    }

    /// Whether a place is in the box, or outside of it by less than this, horizontally and vertically.
    pub fn is_near(&self, (x, y): (f64, f64), (wide, high): (f64, f64)) -> bool {
        x > self.left - wide && x < self.right() + wide && y > self.top - high && y < self.bottom() + high
    }

    /// The box together with so much room at a side.
    fn with(self, side: Side, room: f64) -> Rect {
        match side {
            Side::Left => Rect { left: self.left - room, width: self.width + room, ..self },
            Side::Right => Rect { width: self.width + room, ..self },
            Side::Above => Rect { top: self.top - room, height: self.height + room, ..self },
            Side::Below => Rect { height: self.height + room, ..self },
        }
    }

    fn moved(self, right: f64, down: f64) -> Rect {
        Rect { left: self.left + right, top: self.top + down, ..self }
    }
}

/// Places nodes with these needs and edges, which lead from one node to another.
pub fn layout(needs: &[Need], edges: &[(usize, usize)]) -> Layout {
    match forest::trees(needs.len(), edges) {
        Some(trees) => tree::rows(needs, &trees),
        None => circle::around(needs),
    }
}
