//! A tableau drawn: the tree of its branches.
//!
//! - `tree` makes the tree as data, `outline` says how it is laid out;
//! - `branch` draws lines and steps, `parts` puts them together.

mod branch;
mod outline;
mod parts;
mod tree;

use super::html::{self, Html, element, section, text, words};
use super::{Drawing, entries};
use branch::{Branches, step_id};
use oracle::explain::Conclusion;
use oracle::explain::formula::Formula;
use oracle::explain::tableau::{LEGEND, rules_of};
use oracle::explain::wording::{count, in_thousands};
use oracle::pattern::Pattern;
use oracle::tableau::Tableau;
use oracle::tableau::rules::Step;
use outline::{Outlined, outline};
use parts::parts;
use tree::Tree;

/// The most entries that are unfolded at first, if lines mention them by their labels.
const FEW_ENTRIES: usize = 20;

/// The tree with what its rules say, and the step at fault in its place.
pub fn drawing(pattern: &Pattern, formula: &Formula, tableau: &Tableau, conclusion: &Conclusion) -> Drawing {
    let tree = &Tree::grow(pattern, tableau);
    let outline = outline(tree);
    let branches = Branches { formula, tableau, tree, conclusion };
    let behind = tree.refused.as_ref().filter(|refused| refused.behind).map(|_| branches.fault());
    let drawn = parts(&branches, &outline).into_iter().chain(behind);
    let unfolded = formula.has_labels() && pattern.entries.len() <= FEW_ENTRIES;
    let mut sections = vec![
        entries::folded(pattern, formula, unfolded, None),
        words("h2", &[], "Tableau"),
        words("p", &[("class", "note")], summary(tableau, &outline[0])),
        element("div", &[("id", "tree"), ("class", "scroll")], drawn),
    ];
    sections.extend(not_reached(&tableau.steps, tree.steps.len() + 1));
    let shown = tree.steps.len() + usize::from(tree.refused.is_some());
    sections.push(rules_used(&tableau.steps[..shown]));
    let panel = [("id", "chosen"), ("aria-live", "polite"), ("hidden", "")];
    sections.push(element("aside", &panel, []));
    let (style, script) = (include_str!("tableau.css"), include_str!("tableau.js"));
    Drawing { sections, style, script, fault: fault_id(tree) }
}

/// How much there is, and how a line is to be read.
fn summary(tableau: &Tableau, all: &Outlined) -> String {
    format!(
        "{} of {} taken, {}, {}; start name n{}. {LEGEND}.",
        in_thousands(all.steps as u64),
        count(tableau.steps.len(), "step", "steps"),
        count(all.clashes, "clash", "clashes"),
        count(all.forks, "fork", "forks"),
        tableau.start,
    )
}

/// The refused step, or the open end.
fn fault_id(tree: &Tree) -> Option<String> {
    match &tree.refused {
        Some(_) => Some(step_id(tree.steps.len())),
        None => tree.fault().map(|_| "open".to_string()),
    }
}

/// The steps behind the refused one, with all their fields; nothing if there are none.
fn not_reached(steps: &[Step], first: usize) -> Option<Html> {
    let rest = steps.iter().enumerate().skip(first).map(|(number, step)| {
        let Step { rule, p, q, argument } = step;
        let fields = format!("step {number}: rule {rule}, P {p}, Q {q}, argument {argument}");
        words("div", &[("id", &step_id(number))], fields)
    });
    let summary = [text("Steps that weren't reached")];
    (first < steps.len()).then(|| html::details(&[("id", "unreached")], false, summary, rest.collect()))
}

/// What the rules of the steps say.
fn rules_used(steps: &[Step]) -> Html {
    let rows = rules_of(steps).into_iter().map(|(number, name, says)| {
        let cells = [format!("rule {number}"), name.to_string(), says.to_string()];
        element("tr", &[("id", &format!("rule{number}"))], cells.map(|cell| words("td", &[], cell)))
    });
    section(None, "Rules used", [html::table("rules", &["rule", "name", "says"], rows)])
}
