//! What stands at the place of a refusal of a step (25, 19 to 24), and what is open at the end (26).

use super::{Conclusion, refused};
use crate::explain::formula::Formula;
use crate::explain::rule;
use crate::explain::wording::{count, numbered};
use crate::finding::Refusal;
use crate::pattern::Pattern;
use crate::tableau::Tableau;
use crate::tableau::rules::Step;
use crate::tableau::walk::Walk;

/// The walk stands where the step was refused.
pub fn of_step(
    pattern: &Pattern,
    formula: &Formula,
    walk: &Walk,
    tableau: &Tableau,
    refusal: Refusal,
) -> Conclusion {
    let Some(step) = tableau.steps.get(refusal.place as usize) else {
        return refused(refusal, &format!("{} No clash ends the branch.", standing(walk)));
    };
    let mut details = vec![bare(step)];
    match refusal.number {
        20 | 23 | 24 => details.extend([standing(walk), says(step.rule)]),
        21 => {
            details.extend(used(formula, walk, step));
            details.push(says(step.rule));
        }
        22 => details.push(user(pattern, formula, walk, step.argument)),
        _ => {}
    }
    refused(refusal, &details.join("\n"))
}

/// All fields of the step, whether its rule uses them or not.
fn bare(step: &Step) -> String {
    let Step { rule, p, q, argument } = step;
    format!("The step is rule {rule}, P {p}, Q {q}, argument {argument}.")
}

/// The branch that the step belongs to.
fn standing(walk: &Walk) -> String {
    let lines = count(walk.branch().len(), "line", "lines");
    format!("The branch has {lines}, numbered from 0. Right sides waiting: {}.", walk.waiting())
}

fn used(formula: &Formula, walk: &Walk, step: &Step) -> Vec<String> {
    let lines = rule::used_lines(formula, walk.branch(), step);
    lines.iter().zip(["P", "Q"]).map(|(line, field)| format!("{field} is {line}.")).collect()
}

fn says(rule: u8) -> String {
    let (name, says) = rule::described(rule).unwrap_or(("unknown", ""));
    format!("Rule {rule} ({name}) says: {says}.")
}

/// What has the name that isn't fresh: an entry of the pattern, or else a line of the branch.
fn user(pattern: &Pattern, formula: &Formula, walk: &Walk, name: u8) -> String {
    if let Some(entry) = pattern.entries.iter().position(|entry| entry.name() == Some(name)) {
        return format!("Entry {entry} of the pattern has n{name}.");
    }
    let lines = (0..walk.branch().len()).filter(|&number| walk.branch()[number].has_name(name));
    let first = lines.map(|number| numbered(formula, walk.branch(), number)).next();
    format!("n{name} stands on {}.", first.unwrap_or_default())
}
