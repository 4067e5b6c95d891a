//! The picture: boxes of nodes at their places over the lines of edges.

use super::lines::{self, Line};
use super::nodes;
use crate::page::html::{Html, element, words};
use crate::page::layout::{FITTED, Layout, Need, Rect, Shape, layout};
use oracle::explain::wording::counts;
use oracle::model::{Edge, Model};
use oracle::pattern::MAX_AXIS;

/// The width of a letter, the height of a line and the room around the text of a box.
const LETTER: f64 = 7.3;
const LINE: f64 = 15.0;
const PADDING: f64 = 11.0;
/// What the longest text takes that a script puts into a box: `e254 leads on`.
const CHOSEN: usize = 13;
/// On a circle with more edges than this, labels are shown of the chosen node's only.
const LABELLED: usize = 150;
/// The room around a line and its label.
const AROUND: f64 = 10.0;
/// The size of the numbers of a large picture, as far as there is room for it.
const MOST: f64 = 22.0;
/// What is wider than the page by this can't be read if it is fitted to it.
const TOO_WIDE: f64 = 1.5;

/// The picture, and what is said of it.
pub struct Picture {
    pub svg: Html,
    pub shape: Shape,
    /// Whether its lines have their labels from the start.
    pub labelled: bool,
    /// Whether its boxes have just numbers as long as it is fitted to the page.
    pub far: bool,
    /// Whether it is shown in full size from the start.
    pub full: bool,
}

/// Draws the block. The root holds where its flag is set, if that is settled.
pub fn picture(model: &Model, root: Option<&[bool]>) -> Picture {
    let texts: Vec<Vec<(&str, String)>> =
        (0..model.nodes.len()).map(|node| texts(model, node, root)).collect();
    let needs: Vec<Need> = texts.iter().enumerate().map(|(node, texts)| need(model, node, texts)).collect();
    let ends: Vec<_> = model.edges.iter().map(|edge| (edge.0 as usize, edge.2 as usize)).collect();
    let layout = layout(&needs, &ends);
    let lines = lines::lines(&layout, &model.edges);
    let edges = model.edges.iter().zip(&lines).map(|(edge, line)| drawn_edge(edge, line));
    let boxes = texts
        .iter()
        .enumerate()
        .map(|(node, texts)| drawn_node(node, &layout, texts, root.is_some_and(|root| root[node])));
    let round = layout.shape == Shape::Circle;
    let labelled = model.edges.len() <= LABELLED || !round;
    let content = [arrows()].into_iter().chain(edges).chain(boxes);
    let frame = frame(&layout, &lines);
    let (class, first) = (class(&layout, labelled), first(&layout, root).to_string());
    let svg = framed(&frame, model, [("class", &class), ("data-first", &first)], content);
    let far = is_far(&layout);
    Picture { svg, shape: layout.shape, labelled, far, full: !far && frame.width > TOO_WIDE * FITTED }
}

/// The node that is to be seen first: one where the root holds, or else the root of a tree.
fn first(layout: &Layout, root: Option<&[bool]>) -> usize {
    let holds = root.and_then(|root| root.iter().position(|&holds| holds));
    holds.or(layout.parents.iter().position(Option::is_none)).unwrap_or(0)
}

/// Whether it is so large that its boxes can't be read if it is fitted to the page: they have just numbers
/// then.
fn is_far(layout: &Layout) -> bool {
    match layout.shape {
        Shape::Circle => layout.boxes.len() > lines::READABLE || layout.width > TOO_WIDE * FITTED,
        Shape::Trees(_) => layout.unit > 1.0,
    }
}

fn class(layout: &Layout, labelled: bool) -> String {
    let round = layout.shape == Shape::Circle;
    let classes = [(!labelled, "unlabelled"), (round, "round"), (is_far(layout), "far")];
    classes.into_iter().filter(|(is, _)| *is).map(|(_, class)| class).collect::<Vec<_>>().join(" ")
}

/// What the picture shows: the boxes and their loops, and all of the lines.
fn frame(layout: &Layout, lines: &[Line]) -> Rect {
    let around = AROUND * layout.unit;
    let (mut left, mut top, mut right, mut bottom) = (0.0, 0.0, layout.width, layout.height);
    for (x, y) in lines.iter().flat_map(|line| line.places().chain([line.label()])) {
        (left, top) = (f64::min(left, x - around), f64::min(top, y - around));
        (right, bottom) = (f64::max(right, x + around), f64::max(bottom, y + around));
    }
    Rect { left, top, width: right - left, height: bottom - top }
}

/// The content in its frame. For the style: how wide a unit is of a picture fitted to the page, and how much
/// its lines fade if there are many.
fn framed(
    frame: &Rect,
    model: &Model,
    own: [(&'static str, &str); 2],
    content: impl Iterator<Item = Html>,
) -> Html {
    let edges = model.edges.len();
    let label = format!("The block: {}", counts(model.nodes.len(), model.names.len(), edges));
    let sizes = [frame.left, frame.top, frame.width, frame.height];
    let [left, top, width, height] = sizes.map(|size| format!("{size:.0}"));
    let view = format!("{left} {top} {width} {height}");
    let fade = (LABELLED as f64 / edges.max(LABELLED) as f64).sqrt();
    let style = format!("--unit: {:.2}px; --fade: {fade:.2}", frame.width / FITTED);
    let attributes = [
        ("id", "picture"),
        ("role", "group"),
        ("aria-label", label.as_str()),
        ("width", width.as_str()),
        ("height", height.as_str()),
        ("viewBox", view.as_str()),
        ("style", style.as_str()),
    ];
    element("svg", &[&attributes[..], &own].concat(), content)
}

/// The lines of a node's box, each with its class; the last is left to the script where an entry can be
/// chosen.
fn texts(model: &Model, node: usize, root: Option<&[bool]>) -> Vec<(&'static str, String)> {
    let mut texts = vec![("number", format!("node {node}"))];
    texts.extend(nodes::lines(model, node).into_iter().map(|line| ("detail", line)));
    if let Some(root) = root {
        texts.extend(root[node].then(|| ("root", "root holds".to_string())));
        texts.push(("chosen", String::new()));
    }
    texts
}

fn need(model: &Model, node: usize, texts: &[(&str, String)]) -> Need {
    let letters = |(class, text): &(&str, String)| if *class == "chosen" { CHOSEN } else { text.len() };
    let letters = texts.iter().map(letters).max().unwrap_or(0);
    let loops = model.edges.iter().filter(|edge| edge.0 as usize == node && edge.2 as usize == node);
    Need {
        width: (letters as f64 * LETTER + 2.0 * PADDING).ceil(),
        height: texts.len() as f64 * LINE + 2.0 * PADDING - 3.0,
        beside: lines::room_for_loops(loops.count()),
    }
}

fn drawn_node(node: usize, layout: &Layout, texts: &[(&'static str, String)], holds: bool) -> Html {
    let place = &layout.boxes[node];
    let (number, id) = (node.to_string(), format!("node{node}"));
    let at = format!("translate({:.1} {:.1})", place.left, place.top);
    let attributes = [
        ("class", if holds { "at node holds" } else { "at node" }),
        ("id", id.as_str()),
        ("data-node", number.as_str()),
        ("transform", at.as_str()),
    ];
    let outlines = [outline("mark", place, -5.0), outline("box", place, 0.0)];
    let inner = holds.then(|| outline("inner", place, 4.0));
    let texts = texts.iter().enumerate().map(|(line, (class, text))| {
        let down = PADDING + 10.0 + line as f64 * LINE;
        written(class, (PADDING, down), text)
    });
    let large = is_far(layout).then(|| large(node, place, layout.unit));
    let content = outlines.into_iter().chain(inner).chain(texts).chain(large);
    element("g", &attributes, content)
}

/// What stands in the box instead, as long as a large picture is fitted to the page: the number alone.
fn large(node: usize, place: &Rect, unit: f64) -> Html {
    let (x, y) = (place.width / 2.0, place.height / 2.0);
    let size = format!("font-size: {:.0}px", place.height.min(0.7 * place.width).min(MOST * unit));
    let (x, y) = (format!("{x:.1}"), format!("{y:.1}"));
    let attributes = [("class", "large"), ("x", x.as_str()), ("y", y.as_str()), ("style", size.as_str())];
    words("text", &attributes, node)
}

/// A rounded box so far inside the place, or outside if that is below 0.
fn outline(class: &str, place: &Rect, inside: f64) -> Html {
    let round = 8.0 - inside;
    let numbers = [inside, place.width - 2.0 * inside, place.height - 2.0 * inside, round];
    let [at, width, height, round] = numbers.map(|number| format!("{number:.1}"));
    let attributes = [
        ("class", class),
        ("x", at.as_str()),
        ("y", at.as_str()),
        ("width", width.as_str()),
        ("height", height.as_str()),
        ("rx", round.as_str()),
    ];
    element("rect", &attributes, [])
}

fn written(class: &str, (x, y): lines::Point, text: &str) -> Html {
    let (x, y) = (format!("{x:.1}"), format!("{y:.1}"));
    words("text", &[("class", class), ("x", x.as_str()), ("y", y.as_str())], text)
}

fn drawn_edge(&(from, axis, to): &Edge, line: &Line) -> Html {
    let (group, class) = (format!("link axis{axis}"), format!("edge axis{axis}"));
    let (start, end, path) = (from.to_string(), to.to_string(), line.path());
    let title = words("title", &[], format!("axis {axis} from {from} to {to}"));
    let way = element("path", &[("class", class.as_str()), ("d", path.as_str())], []);
    let label = written("label", line.label(), &axis.to_string());
    let attributes = [("class", group.as_str()), ("data-from", start.as_str()), ("data-to", end.as_str())];
    element("g", &attributes, [title, way, label])
}

/// The arrowheads, one for each axis so that it has the axis's colour.
fn arrows() -> Html {
    let arrow = |axis: u8| {
        let (id, class) = (format!("arrow{axis}"), format!("head axis{axis}"));
        let attributes = [
            ("id", id.as_str()),
            ("viewBox", "0 0 10 10"),
            ("refX", "9.5"),
            ("refY", "5"),
            ("markerWidth", "6"),
            ("markerHeight", "6"),
            ("orient", "auto"),
        ];
        let head = element("path", &[("class", class.as_str()), ("d", "M0 1L10 5L0 9z")], []);
        element("marker", &attributes, [head])
    };
    element("defs", &[], (0..=MAX_AXIS).map(arrow))
}

#[cfg(test)]
mod tests {
    use super::*;
    use oracle::model::Node;

    fn block(nodes: usize, edges: Vec<Edge>) -> Model {
        Model { nodes: (0..nodes).map(|_| Node::default()).collect(), names: Vec::new(), edges }
    }

    #[test]
    fn no_line_leaves_the_picture() {
        let edges: Vec<Edge> =
            (0..7).flat_map(|node| (0..8).map(move |axis| (node, axis, (node + 1) % 7))).collect();
        let ends: Vec<_> = edges.iter().map(|edge| (edge.0 as usize, edge.2 as usize)).collect();
        let layout = layout(&[Need { width: 120.0, height: 80.0, beside: 0.0 }; 7], &ends);
        let lines = lines::lines(&layout, &edges);
        let frame = frame(&layout, &lines);
        let inside =
            |(x, y): lines::Point| x > frame.left && x < frame.right() && y > frame.top && y < frame.bottom();
        assert!(lines.iter().all(|line| line.places().all(inside) && inside(line.label())));
    }

    #[test]
    fn large_trees_have_labels_and_large_pictures_numbers() {
        let loops = (0..64).flat_map(|node| [1, 2, 3].map(|axis| (node, axis, node)));
        let tree: Vec<Edge> = (1..64).map(|node| ((node - 1) / 2, 0, node)).chain(loops).collect();
        let circle = tree.iter().copied().chain([(1, 0, 2)]).collect();
        let drawn = |edges: Vec<Edge>| {
            let Picture { labelled, far, full, .. } = picture(&block(64, edges), None);
            (labelled, far, full)
        };
        assert_eq!(drawn(tree), (true, true, false));
        assert_eq!(drawn(circle), (false, true, false));
        assert_eq!(drawn((1..64).map(|node| (node - 1, 0, node)).collect()), (true, false, false));
    }
}
