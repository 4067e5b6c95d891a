//! The branches put together: forks with their sides beside each other, in parts that aren't too deep.

use super::branch::{Branches, line_id};
use super::outline::Outlined;
use super::tree::{End, Side};
use crate::page::html::{Html, details, element, link, text, words};
use oracle::explain::wording::count;

/// The parts of the tree, the first one first. The last segment is drawn first, and what is drawn is put into
/// the segment before it, so that no depth is too much.
pub fn parts(branches: &Branches, outline: &[Outlined]) -> Vec<Html> {
    let segments = &branches.tree.segments;
    let mut drawn = vec![Html::default(); segments.len()];
    let mut parts = Vec::new();
    for (number, segment) in segments.iter().enumerate().rev() {
        let mut content = branches.segment(number);
        if let End::Fork(sides) = segment.end {
            content.push(element(
                "div",
                &[("class", "fork")],
                sides.map(|side| std::mem::take(&mut drawn[side])),
            ));
        }
        let heading = || heading(branches, number, &outline[number]);
        drawn[number] = match (segment.side, outline[number].part) {
            (None, _) => element("div", &[("class", "part"), ("id", &part_id(1))], content),
            (Some(_), _) if segment.end == End::NotReached => unfoldable(heading()),
            (Some(_), None) => details(&[("class", "side")], outline[number].open, heading(), content),
            (Some(side), Some(part)) => {
                parts.push((part, continued(part, side, segment.first_line, &outline[number], content)));
                unfoldable(
                    heading().into_iter().chain([link(&part_id(part), &format!("continued in part {part}"))]),
                )
            }
        };
    }
    parts.sort_by_key(|&(part, _)| part);
    drawn.into_iter().take(1).chain(parts.into_iter().map(|(_, part)| part)).collect()
}

/// Which side of which fork, how much is behind it, and its first line.
fn heading(branches: &Branches, number: usize, outlined: &Outlined) -> Vec<Html> {
    let segment = &branches.tree.segments[number];
    let named = segment.side.map(named).unwrap_or_default();
    let extent = if segment.end == End::NotReached { "(not reached)".to_string() } else { extent(outlined) };
    let extent = words("span", &[("class", "note")], extent);
    vec![text(format!("{named} ")), extent, text(": "), branches.line(segment.first_line)]
}

fn named(side: Side) -> String {
    format!("{} of step {}", side.word, side.fork)
}

fn extent(outlined: &Outlined) -> String {
    format!("({}, {})", count(outlined.steps, "step", "steps"), count(outlined.clashes, "clash", "clashes"))
}

fn unfoldable(content: impl IntoIterator<Item = Html>) -> Html {
    element("div", &[("class", "side")], content)
}

/// A part that begins on a side, with a link back.
fn continued(part: usize, side: Side, line: usize, outlined: &Outlined, content: Vec<Html>) -> Html {
    let heading = vec![text(format!("Part {part}: {} {}", named(side), extent(outlined)))];
    let back =
        element("p", &[("class", "note")], [link(&line_id(line), &format!("continues {}", named(side)))]);
    let content = [back].into_iter().chain(content).collect();
    details(&[("class", "part"), ("id", &part_id(part))], outlined.open, heading, content)
}

fn part_id(part: usize) -> String {
    format!("part{part}")
}
