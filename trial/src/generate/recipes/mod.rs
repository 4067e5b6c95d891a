//! How an input of each kind is made: those of models in `model`, of older models in `older`, of tableaux in `tableau`,
//! of typed patterns in `text`, the others here.

mod model;
mod older;
mod tableau;
mod text;

use crate::generate::age::age;
use crate::generate::area::Area;
use crate::generate::corpus::{Corpus, Planned};
use crate::generate::input::{Input, Kind, Operation};
use crate::generate::mutate::{Sort, mutate};
use crate::generate::{limits, patterns, texts};
use oracle::planner::builder::MAX_ENTRIES;
use oracle::random::Random;
use oracle::typed::type_pattern;

/// The share of each kind among the inputs.
const SHARES: [(usize, Kind); 32] = [
    (4, Kind::ValidPattern),
    (7, Kind::MutatedPattern),
    (5, Kind::PatternLimit),
    (8, Kind::ValidModel),
    (7, Kind::MutatedModel),
    (3, Kind::DisorderedModel),
    (4, Kind::ModelLimit),
    (2, Kind::ManyPaths),
    (4, Kind::PlannedModel),
    (6, Kind::MutatedPlannedModel),
    (7, Kind::WalkedTableau),
    (9, Kind::WrongStep),
    (3, Kind::TableauLimit),
    (5, Kind::PlannedTableau),
    (7, Kind::MutatedPlannedTableau),
    (10, Kind::OtherName),
    (2, Kind::Exchanged),
    (2, Kind::Unrelated),
    (4, Kind::ModelOfClosed),
    (3, Kind::TableauOfMet),
    (3, Kind::OldModel),
    (3, Kind::MutatedOldModel),
    (3, Kind::OldModelLimit),
    (1, Kind::ModelInOrder),
    (5, Kind::JudgedOldModel),
    (5, Kind::NodesAndPaths),
    (4, Kind::AreaOfPattern),
    (4, Kind::Text),
    (6, Kind::SpoiltText),
    (4, Kind::NumberInText),
    (3, Kind::TextLimit),
    (4, Kind::JudgedText),
];

/// Makes an input of a random kind.
pub fn make(random: &mut Random, corpus: &Corpus, input: &mut Input) {
    input.kind = kind(random);
    input.never = None;
    input.proposal.clear();
    match input.kind {
        Kind::ValidPattern => valid_pattern(random, input),
        Kind::MutatedPattern => mutated_pattern(random, corpus, input),
        Kind::PatternLimit => {
            limits::pattern::pattern(random, &mut input.pattern);
            any_operation(random, corpus, input);
        }
        Kind::ValidModel | Kind::MutatedModel => model::drawn(random, input),
        Kind::DisorderedModel => model::disordered(random, corpus, input),
        Kind::ModelLimit => model::limit(random, input),
        Kind::ManyPaths => model::of_many_paths(random, input),
        Kind::PlannedModel | Kind::MutatedPlannedModel => model::planned(random, corpus, input),
        Kind::WalkedTableau | Kind::WrongStep => tableau::random_walk(random, corpus, input),
        Kind::TableauLimit => tableau::limit(random, input),
        Kind::PlannedTableau | Kind::MutatedPlannedTableau => tableau::planned(random, corpus, input),
        Kind::OtherName => tableau::other_name(random, corpus, input),
        Kind::Exchanged => exchanged(random, corpus, input),
        Kind::Unrelated => unrelated(random, corpus, input),
        Kind::ModelOfClosed => model::of_closed(random, corpus, input),
        Kind::TableauOfMet => tableau::of_met(random, corpus, input),
        Kind::OldModel | Kind::MutatedOldModel | Kind::OldModelLimit | Kind::ModelInOrder => {
            older::to_be_ordered(random, corpus, input);
        }
        Kind::JudgedOldModel => older::judged(random, corpus, input),
        Kind::NodesAndPaths => model::of_nodes_and_paths(random, input),
        Kind::AreaOfPattern => area_of_pattern(random, input),
        Kind::Text | Kind::SpoiltText | Kind::NumberInText | Kind::TextLimit => {
            text::to_be_typed(random, input);
        }
        Kind::JudgedText => text::judged(random, corpus, input),
    }
    lend_area(random, input);
}

/// Lends the area or the destination that the operation wants; what is no part of its input goes.
fn lend_area(random: &mut Random, input: &mut Input) {
    input.area = match input.operation {
        Operation::Reading | Operation::Area => Area::NONE,
        Operation::Model | Operation::Ordered => Area::of_model(random, &input.pattern),
        Operation::Typed => {
            let file = type_pattern(&input.pattern, usize::MAX).unwrap_or_default();
            Area::of_model(random, &file)
        }
        Operation::Tableau => Area::of_tableau(random),
        Operation::Ordering => {
            input.pattern.clear();
            Area::destination(random, &input.proposal)
        }
        Operation::Typing => {
            input.proposal.clear();
            Area::of_text(random, &input.pattern)
        }
    };
}

fn kind(random: &mut Random) -> Kind {
    let mut share = random.below(SHARES.iter().map(|(share, _)| share).sum());
    for (of_kind, kind) in SHARES {
        match share.checked_sub(of_kind) {
            Some(rest) => share = rest,
            None => return kind,
        }
    }
    unreachable!("a share is below the sum of the shares")
}

fn valid_pattern(random: &mut Random, input: &mut Input) {
    input.operation = Operation::Reading;
    input.pattern = patterns::random(random).to_bytes();
}

/// A pattern whose area is asked for, now and then one with a single node.
fn area_of_pattern(random: &mut Random, input: &mut Input) {
    input.operation = Operation::Area;
    let nodes = if random.once_in(8) { 1 } else { random.between(1, MAX_ENTRIES) };
    input.pattern = patterns::of_nodes(random, nodes, MAX_ENTRIES).to_bytes();
}

/// A planned pattern with its own proposal, or a random one with any; the pattern mutated.
fn mutated_pattern(random: &mut Random, corpus: &Corpus, input: &mut Input) {
    match random.below(4) {
        0 => model::planned(random, corpus, input),
        1 => tableau::planned(random, corpus, input),
        _ => {
            input.pattern = patterns::random(random).to_bytes();
            any_operation(random, corpus, input);
        }
    }
    mutate(random, Sort::Pattern, &mut input.pattern);
}

/// Reading, asking for the area, or a judgement of a valid proposal, which a refusal of the pattern hides.
fn any_operation(random: &mut Random, corpus: &Corpus, input: &mut Input) {
    input.operation = random.pick(&Operation::OF_PATTERNS);
    match input.operation {
        Operation::Tableau => input.proposal.clone_from(&any(random, &corpus.closed).proposal_file),
        Operation::Model => model::for_pattern(random, corpus, input),
        Operation::Ordered => {
            model::for_pattern(random, corpus, input);
            age(random, &mut input.proposal);
        }
        Operation::Reading | Operation::Ordering | Operation::Area | Operation::Typing | Operation::Typed => {
        }
    }
}

fn any<'c>(random: &mut Random, planned: &'c [Planned]) -> &'c Planned {
    &planned[random.below(planned.len())]
}

/// A tableau handed to an operation of models, or a model to the tableau judgement.
fn exchanged(random: &mut Random, corpus: &Corpus, input: &mut Input) {
    if random.once_in(2) {
        tableau::planned(random, corpus, input);
        input.operation = random.pick(&[Operation::Model, Operation::Ordering, Operation::Ordered]);
    } else {
        model::planned(random, corpus, input);
        input.operation = Operation::Tableau;
    }
}

/// Random bytes as a proposal, or as a pattern too, now and then with the right mark.
fn unrelated(random: &mut Random, corpus: &Corpus, input: &mut Input) {
    if random.once_in(2) {
        input.pattern.clone_from(&any(random, &corpus.closed).pattern_file);
    } else {
        noise(random, b"PAT\x01\x00", &mut input.pattern);
    }
    input.operation = random.pick(&Operation::ALL);
    match input.operation {
        Operation::Reading | Operation::Area => {}
        Operation::Typing => noise(random, b"[{|/0", &mut input.pattern),
        Operation::Typed => {
            input.pattern = texts::random(random);
            noise(random, b"DAT\x01\x00", &mut input.proposal);
        }
        Operation::Model | Operation::Ordering | Operation::Ordered => {
            noise(random, b"DAT\x01\x00", &mut input.proposal);
        }
        Operation::Tableau => noise(random, b"TAB\x01\x00", &mut input.proposal),
    }
}

fn noise(random: &mut Random, beginning: &[u8], file: &mut Vec<u8>) {
    file.clear();
    if random.once_in(2) {
        file.extend(beginning);
    }
    let length = if random.once_in(16) { random.between(0, 2000) } else { random.between(0, 60) };
    file.extend((0..length).map(|_| random.byte()));
}
