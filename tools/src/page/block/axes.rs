//! The legend: the axes that occur, each with a box that shows or hides it.

use super::picture::Picture;
use crate::page::html::{Html, element, text, words};
use crate::page::layout::Shape;
use oracle::explain::wording::count;
use oracle::model::Model;
use oracle::pattern::MAX_AXIS;

const FAR: &str = " What its nodes have is shown in full size.";
const MANY: &str = " It has many edges: the numbers of their axes are shown at those of a chosen node.";

/// The legend of the picture, and what is to be said of it.
pub fn legend(model: &Model, picture: &Picture) -> Vec<Html> {
    let many = (!picture.labelled).then(|| words("span", &[("class", "needs-script")], MANY));
    let far = picture.far.then(|| text(FAR));
    let said = [text(shape(picture.shape))].into_iter().chain(far).chain(many);
    let axes = (0..=MAX_AXIS).filter_map(|axis| {
        let edges = model.edges.iter().filter(|edge| edge.1 == axis).count();
        (edges > 0).then(|| item(axis, edges))
    });
    let list = (!model.edges.is_empty()).then(|| element("ul", &[("class", "legend")], axes));
    [element("p", &[("class", "note")], said)].into_iter().chain(list).collect()
}

fn shape(shape: Shape) -> String {
    match shape {
        Shape::Trees(1) => "The block is a tree.".to_string(),
        Shape::Trees(trees) => format!("The block is a forest of {trees} trees."),
        Shape::Circle => "The block isn't a tree: its nodes stand in a circle.".to_string(),
    }
}

fn item(axis: u8, edges: usize) -> Html {
    let (number, class) = (axis.to_string(), format!("edge axis{axis}"));
    let switch = [("type", "checkbox"), ("checked", ""), ("data-axis", number.as_str())];
    let sample = element("path", &[("class", class.as_str()), ("d", "M2 7H52")], []);
    let size = [("class", "sample"), ("width", "56"), ("height", "14"), ("aria-hidden", "true")];
    let said = text(format!("axis {axis}: {}", count(edges, "edge", "edges")));
    let label = [element("input", &switch, []), element("svg", &size, [sample]), said];
    element("li", &[], [element("label", &[], label)])
}
