//! Tableaux to be judged.

use super::any;
use crate::generate::corpus::{Corpus, Planned};
use crate::generate::crowd::crowded;
use crate::generate::input::{Input, Kind, Never, Operation};
use crate::generate::mutate::{Sort, mutate};
use crate::generate::rename::Renaming;
use crate::generate::walk::Walker;
use crate::generate::{asked, limits, patterns};
use oracle::pattern::Pattern;
use oracle::random::Random;

pub fn limit(random: &mut Random, input: &mut Input) {
    input.operation = Operation::Tableau;
    limits::tableau::tableau(random, &mut input.pattern, &mut input.proposal);
}

pub fn planned(random: &mut Random, corpus: &Corpus, input: &mut Input) {
    let planned = any(random, &corpus.closed);
    input.pattern.clone_from(&planned.pattern_file);
    closed(random, planned, input);
    if input.kind == Kind::MutatedPlannedTableau {
        mutate(random, Sort::Tableau, &mut input.proposal);
    }
}

/// The closed tableau of a plan, renamed together with the pattern.
fn closed(random: &mut Random, planned: &Planned, input: &mut Input) {
    input.operation = Operation::Tableau;
    input.proposal.clone_from(&planned.proposal_file);
    let renaming = Renaming::random(random);
    renaming.pattern(&mut input.pattern);
    renaming.tableau(&mut input.proposal);
}

/// A closed tableau that brings names, with another start name or with another name that a step brings. Its
/// pattern has one more name; that of another start name is now and then a random one.
pub fn other_name(random: &mut Random, corpus: &Corpus, input: &mut Input) {
    let brings = |planned: &&Planned| asked::brought(&planned.proposal_file).next().is_some();
    let bringing: Vec<&Planned> = corpus.closed.iter().filter(brings).collect();
    let planned = random.pick(&bringing);
    let (at_start, unrelated) = (random.once_in(3), random.once_in(4));
    let pattern = if at_start && unrelated {
        patterns::random(random)
    } else {
        asked::with_name(random, &planned.pattern)
    };
    input.pattern = pattern.to_bytes();
    closed(random, planned, input);
    let ask = if at_start { asked::start } else { asked::fresh };
    ask(random, &input.pattern, &mut input.proposal);
}

/// A walk on a pattern with a closed tableau, which it sometimes closes, or on a crowded or random one.
pub fn random_walk(random: &mut Random, corpus: &Corpus, input: &mut Input) {
    let wrong = input.kind == Kind::WrongStep;
    if random.once_in(3) {
        let planned = any(random, &corpus.closed);
        walk(random, &planned.pattern, wrong, input);
    } else {
        let pattern = if random.once_in(2) { crowded(random) } else { patterns::random(random) };
        walk(random, &pattern, wrong, input);
    }
}

/// A random tableau for a pattern that has a model which meets it, so that none closes.
pub fn of_met(random: &mut Random, corpus: &Corpus, input: &mut Input) {
    input.never = Some(Never::Closed);
    let wrong = random.once_in(4);
    let planned = any(random, &corpus.met);
    walk(random, &planned.pattern, wrong, input);
    if random.once_in(4) {
        mutate(random, Sort::Tableau, &mut input.proposal);
    }
}

fn walk(random: &mut Random, pattern: &Pattern, wrong: bool, input: &mut Input) {
    input.operation = Operation::Tableau;
    input.pattern = pattern.to_bytes();
    let mut walker = Walker::new(pattern, random);
    let steps = if random.once_in(64) { random.between(60, 300) } else { random.between(1, 40) };
    walker.go(steps, random);
    if wrong {
        walker.add_wrong(random);
        for _ in 0..random.below(3) {
            walker.add_random(random);
        }
    }
    input.proposal = walker.into_tableau().to_bytes();
}
