//! `riser plan`: a search for a closed tableau, or for a small block that meets the pattern.

use super::{PROPOSAL, UNNAMED, judge};
use crate::agreed;
use crate::arguments::{Arguments, OVER, Opt, TEXT, TEXT_FILE, Takes};
use crate::command::{Command, Failure, Status};
use crate::files::source::{Given, Source};
use crate::files::{self, target};
use crate::output;
use crate::progress::Progress;
use oracle::explain::refusal;
use oracle::explain::wording::{count, in_thousands};
use oracle::pattern::Pattern;
use oracle::planner::{Effort, Plan, plan_watched};
use oracle::tableau::is_marked;

const BUDGET: Opt =
    Opt { name: "--budget", takes: Takes::Number, help: "how many steps it tries, 100,000 if not said" };
const SEED: Opt = Opt {
    name: "--seed",
    takes: Takes::Number,
    help: "settles the order of what is equally good, 0 if not said",
};
const DEFAULT_BUDGET: u64 = 100_000;

pub const PLAN: Command = Command {
    name: "plan",
    summary: "search for a tableau that closes, or for a small block that meets",
    usage: "riser plan [-o FILE] [--over] [--budget N] [--seed N]\n         (PATTERN | -e TEXT | --text FILE)",
    about: "\
Searches for a closed tableau, and for a small block (a model) that meets the
pattern, and writes what it finds. The search is no part of the unit: what it
finds is judged before it is written, and the finding printed.
",
    options: &[PROPOSAL, OVER, TEXT, TEXT_FILE, BUDGET, SEED],
    examples: "\
Example: can a setting have property 0 and lack it?

  riser plan -o tableau.bin -e '(p0&!p0)'
",
    run,
};

/// Writes what the search finds, and says what it is.
fn run(arguments: &Arguments) -> Result<Status, Failure> {
    let (source, []) = arguments.pattern_and([])?;
    let file = arguments.path_or(&PROPOSAL, UNNAMED);
    let budget = arguments.number(&BUDGET, DEFAULT_BUDGET)?;
    let effort = Effort { budget: budget as usize, seed: arguments.number(&SEED, 0)? };
    let (bytes, pattern) = read(&source)?;
    let target = target::claim(file, arguments.has(&OVER), &[(source.file(), "the pattern")])?;
    let nothing = || {
        let message = format!("{}: nothing found within a budget of {}", source.name(), in_thousands(budget));
        Failure::new(Status::Unmet, message)
    };
    let (proposal, what) = match search(&pattern, effort).ok_or_else(nothing)? {
        Plan::Tableau(tableau) => (tableau.to_bytes(), count(tableau.steps.len(), "step", "steps")),
        Plan::Model(model) => (model.to_bytes(), count(model.nodes.len(), "node", "nodes")),
    };
    let judged = judged(&bytes, &proposal)?.ok_or_else(nothing)?;
    target.write(&proposal)?;
    let sort = if is_marked(&proposal) { "tableau" } else { "block" };
    output::tell("riser plan", &format!("{judged}{}: {sort}, {what}", files::name(file)));
    Ok(Status::Found)
}

/// The finding in words, if it is met or closed: a search that goes wrong has found nothing.
fn judged(pattern: &[u8], proposal: &[u8]) -> Result<Option<String>, Failure> {
    let conclusion = agreed::explained(pattern, proposal)?.conclusion;
    Ok((Status::of(conclusion.finding) == Status::Found).then(|| judge::in_lines(&conclusion)))
}

/// Searches, and shows meanwhile how much of the budget is spent.
fn search(pattern: &Pattern, effort: Effort) -> Option<Plan> {
    let progress = Progress::new("riser plan", effort.budget as u64, "steps of the budget");
    plan_watched(pattern, effort, &mut |spent| progress.reached(spent as u64))
}

/// The pattern, in bytes and read.
fn read(source: &Source) -> Result<(Vec<u8>, Pattern), Failure> {
    let conclusion = match source.read()? {
        Given::Pattern(bytes) => match agreed::read(&bytes)? {
            Ok(pattern) => return Ok((bytes, pattern)),
            Err(refused) => refusal::of_pattern(&bytes, refused),
        },
        Given::Refused { conclusion, .. } => conclusion,
    };
    Err(Failure::refused(&source.name(), &conclusion))
}

#[cfg(test)]
mod tests {
    use super::*;

    /// One node without properties, where p0 doesn't hold.
    #[test]
    fn what_is_neither_met_nor_closed_is_not_found() {
        let pattern = b"PAT\x01\x00\x01\x01\x00\x00\x00";
        let block = |properties: u8| [&b"DAT\x01\x00\x01\x00\x00\x00"[..], &[properties], &[0; 11]].concat();
        assert_eq!(judged(pattern, &block(0)), Ok(None));
        assert_eq!(judged(pattern, b"TAB"), Ok(None));
        let met = judged(pattern, &block(1)).expect("both implementations agree");
        assert!(met.is_some_and(|met| met.starts_with("met 0 1\n")));
    }
}
