//! A tableau explained: the tree, the rules that it uses, and the finding.

use super::formula::Formula;
use super::tree::Tree;
use super::wording::count;
use super::{Conclusion, Explained, refusal, rule};
use crate::finding::Finding;
use crate::pattern::Pattern;
use crate::tableau::rules::Step;
use crate::tableau::walk::Walk;
use crate::tableau::{finding, parse};
use std::collections::BTreeSet;

/// How a line of a tableau is to be read.
pub const LEGEND: &str = "[N] is line N of its branch; barred: no ends compare so";

pub(super) fn explain(pattern: &Pattern, formula: &Formula, bytes: &[u8]) -> Explained {
    let tableau = match parse(pattern, bytes) {
        Ok(tableau) => tableau,
        Err(refused) => {
            return Explained {
                body: String::new(),
                conclusion: refusal::of_tableau(pattern, bytes, refused),
            };
        }
    };
    let tree = Tree::grow(formula, Walk::begin(pattern, tableau.start), &tableau);
    let conclusion = match finding(pattern, &tableau) {
        Finding::Refused(refused) => refusal::of_step(pattern, formula, &tree.walk, &tableau, refused),
        closed => closing(closed),
    };
    let heading = format!(
        "Tableau of {}, start name n{} ({LEGEND}):",
        count(tableau.steps.len(), "step", "steps"),
        tableau.start,
    );
    let rules = rules_used(&tableau.steps[..tree.taken]);
    Explained { body: format!("{heading}\n{}\n{rules}", tree.text), conclusion }
}

/// What the rules of the steps say; nothing if there are no steps.
fn rules_used(steps: &[Step]) -> String {
    if steps.is_empty() {
        return String::new();
    }
    let rules = rules_of(steps).into_iter();
    let lines = rules.map(|(number, name, says)| format!("  rule {number} ({name}): {says}\n"));
    format!("Rules used:\n{}\n", lines.collect::<String>())
}

/// The rules of the steps, each once: number, name and what it says.
pub fn rules_of(steps: &[Step]) -> Vec<(u8, &'static str, &'static str)> {
    let rules: BTreeSet<u8> = steps.iter().map(|step| step.rule).collect();
    let described = |rule: u8| rule::described(rule).map(|(name, says)| (rule, name, says));
    rules.into_iter().filter_map(described).collect()
}

fn closing(finding: Finding) -> Conclusion {
    Conclusion::found(finding, "Every branch ends in a clash: no model meets the pattern")
        .with("(The counts are steps, clashes, forks, and the most lines that a branch had at its clash.)")
}
