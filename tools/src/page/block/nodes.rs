//! What is said of a node: in short in its box, in full in the table of nodes.

use crate::page::html::{self, Html, element, or_none, words};
use oracle::explain::model::{edges, lettered, names, properties, values};
use oracle::model::Model;

/// The longest line in a box, in letters, and the most lines of a list.
const WIDEST: usize = 20;
const MOST_LINES: usize = 3;

/// A part of a list: one item, or a run of them.
struct Run {
    text: String,
    items: usize,
}

/// The lines in a node's box, below its number.
pub fn lines(model: &Model, node: usize) -> Vec<String> {
    let single = |text: &str| Run { text: text.to_string(), items: 1 };
    let values: Vec<Run> = ["values"].into_iter().chain(values(model, node).split(' ')).map(single).collect();
    let lists = [runs('n', &names(model, node)), runs('p', &properties(model, node)), values];
    lists.iter().flat_map(|list| short(list)).collect()
}

/// The numbers, of which three or more that follow one another are taken together: `p0-p31`.
fn runs(letter: char, numbers: &[u8]) -> Vec<Run> {
    let run = |run: &[u8]| match run {
        [first, _, .., last] => {
            vec![Run { text: format!("{letter}{first}-{letter}{last}"), items: run.len() }]
        }
        few => few.iter().map(|number| Run { text: format!("{letter}{number}"), items: 1 }).collect(),
    };
    numbers.chunk_by(|one, next| one + 1 == *next).flat_map(run).collect()
}

/// The list in a few lines. If it has more, the last says how much is left out.
fn short(list: &[Run]) -> Vec<String> {
    let mut lines: Vec<(String, usize)> = Vec::new();
    for Run { text, items } in list {
        match lines.last_mut() {
            Some((line, inside)) if line.len() + 1 + text.len() <= WIDEST => {
                *line += &format!(" {text}");
                *inside += items;
            }
            _ => lines.push((text.clone(), *items)),
        }
    }
    if lines.len() > MOST_LINES {
        let rest = lines.split_off(MOST_LINES - 1);
        let left_out = rest.iter().map(|line| line.1).sum::<usize>();
        lines.push((format!(".. and {left_out} more"), left_out));
    }
    lines.into_iter().map(|line| line.0).collect()
}

/// The table of nodes, in which those where the root holds are marked, as far as that is known.
pub fn table(model: &Model, root: Option<&[bool]>) -> Html {
    let mut headings = vec!["node", "names", "properties", "values", "edges"];
    headings.extend(root.map(|_| "marks"));
    let rows = (0..model.nodes.len()).map(|node| row(model, node, root.map(|root| root[node])));
    html::table("nodes", &headings, rows)
}

fn row(model: &Model, node: usize, root: Option<bool>) -> Html {
    let names = or_none(lettered('n', &names(model, node)));
    let properties = or_none(lettered('p', &properties(model, node)));
    let cells = [names, properties, values(model, node), or_none(edges(model, node))];
    let number = words("th", &[], node);
    let cells = cells.map(|cell| words("td", &[], cell));
    let marks = root.map(|holds| {
        let root = holds.then(|| words("strong", &[], "root holds "));
        let chosen = element("span", &[("class", "chosen")], []);
        element("td", &[], root.into_iter().chain([chosen]))
    });
    let (id, number_text) = (format!("row{node}"), node.to_string());
    let class = if root == Some(true) { "at holds" } else { "at" };
    let attributes = [("class", class), ("id", id.as_str()), ("data-node", &number_text)];
    element("tr", &attributes, [number].into_iter().chain(cells).chain(marks))
}

#[cfg(test)]
mod tests {
    use super::*;

    #[test]
    fn long_lists_are_shortened_and_say_by_how_much() {
        let all: Vec<u8> = (0..=31).collect();
        assert_eq!(short(&runs('p', &all)), ["p0-p31"]);
        assert_eq!(short(&runs('p', &[0, 1, 3, 4, 5, 31])), ["p0 p1 p3-p5 p31"]);
        let even: Vec<u8> = (0..128).step_by(2).collect();
        assert_eq!(short(&runs('n', &even)), ["n0 n2 n4 n6 n8 n10", "n12 n14 n16 n18 n20", ".. and 53 more"]);
        assert!(short(&[]).is_empty());
    }
}
