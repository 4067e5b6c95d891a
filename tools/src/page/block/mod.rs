//! A block drawn: its nodes and edges, and where the entries of a pattern hold.
//!
//! - `picture` draws it, with the `lines` of edges; `axes` is the picture's legend;
//! - `nodes` says what a node has, in its box and in a table; `holding` where entries hold, in the table of
//!   entries.

mod axes;
mod holding;
mod lines;
mod nodes;
mod picture;

use super::Drawing;
use super::entries::has_name;
use super::html::{Html, element, section, text, words};
use holding::Holding;
use oracle::explain::Conclusion;
use oracle::explain::formula::Formula;
use oracle::explain::wording::counts;
use oracle::finding::{Finding, Refusal};
use oracle::model::Model;
use oracle::pattern::Pattern;

const OUTLINED: &str = "Nodes with a double outline, or filled, are those where the root holds. ";
const CHOOSING: &str = "\
Choose an entry to mark where it holds, or from where a path leads on; choose a node to mark its edges and \
the entries that hold there. Escape takes it back. ";

/// The picture of a block that was read, and what is found of a pattern in it.
pub fn drawing(pattern: &Pattern, formula: &Formula, model: &Model, conclusion: &Conclusion) -> Drawing {
    let missing = match conclusion.finding {
        Finding::Refused(Refusal { number: 27, place }) => Some(place as u8),
        _ => None,
    };
    let (entries, note, holding) = match missing {
        Some(name) => (holding::table_without(pattern, formula, model, name), unsettled(name), None),
        None => {
            let holding = Holding::new(pattern, model);
            (holding::table(pattern, formula, &holding), choosing(), Some(holding))
        }
    };
    let root = holding.as_ref().map(|holding| holding.flags(formula.root()));
    let entries = element("div", &[("class", "scroll")], [entries]);
    let entries = section(Some("entries"), "The pattern's entries", [note, entries]);
    let beside = element("div", &[("class", "beside")], [drawn(model, root), entries]);
    let table = element("div", &[("class", "wide")], [nodes::table(model, root)]);
    let table = section(Some("nodes"), "The nodes", [table]);
    let fault = (0..pattern.entries.len()).find(|&entry| has_name(pattern, entry, missing));
    Drawing {
        sections: vec![beside, table],
        style: include_str!("block.css"),
        script: include_str!("block.js"),
        fault: fault.map(|entry| format!("e{entry}")),
    }
}

/// The picture with what belongs to it.
fn drawn(model: &Model, root: Option<&[bool]>) -> Html {
    let picture = picture::picture(model, root);
    let counts = counts(model.nodes.len(), model.names.len(), model.edges.len());
    let switch = [("type", "checkbox"), ("id", "full"), ("checked", "")];
    let full = element("input", if picture.full { &switch } else { &switch[..2] }, []);
    let full = element("label", &[("class", "full")], [full, text("full size")]);
    let said = element("p", &[], [text(format!("{counts}. ")), full]);
    let state = words("p", &[("id", "choice"), ("class", "note"), ("role", "status")], "");
    let below = axes::legend(model, &picture);
    let scroll = element("div", &[("class", "scroll")], [picture.svg]);
    section(Some("block"), "The block", [said, scroll, state].into_iter().chain(below))
}

/// How an entry is chosen, with a button for none.
fn choosing() -> Html {
    let none = [("type", "radio"), ("name", "entry"), ("value", ""), ("checked", "")];
    let none = element("label", &[], [element("input", &none, []), text("none")]);
    let choosing = element("span", &[("class", "needs-script")], [text(CHOOSING), none]);
    element("p", &[("class", "note")], [text(OUTLINED), choosing])
}

fn unsettled(name: u8) -> Html {
    let said =
        format!("Where the entries hold isn't settled: the block doesn't list n{name}, which they use.");
    words("p", &[("class", "note")], said)
}
