//! Models to be judged.

use super::any;
use crate::generate::corpus::Corpus;
use crate::generate::disorder::disorder;
use crate::generate::input::{Input, Kind, Never, Operation};
use crate::generate::mutate::{Sort, mutate};
use crate::generate::rename::Renaming;
use crate::generate::{limits, models, paths, patterns};
use oracle::pattern;
use oracle::planner::builder::MAX_ENTRIES;
use oracle::random::Random;

/// A model for the pattern, if that is read, so that it mostly lists the pattern's names; else any.
pub fn for_pattern(random: &mut Random, corpus: &Corpus, input: &mut Input) {
    match pattern::parse(&input.pattern) {
        Ok(pattern) => input.proposal = models::random(random, &pattern).to_bytes(),
        Err(_) => input.proposal.clone_from(&any(random, &corpus.met).proposal_file),
    }
}

/// A random model for a random pattern.
pub fn drawn(random: &mut Random, input: &mut Input) {
    input.operation = Operation::Model;
    let pattern = patterns::random(random);
    input.pattern = pattern.to_bytes();
    input.proposal = models::random(random, &pattern).to_bytes();
    rename(random, input);
    if input.kind == Kind::MutatedModel {
        mutate(random, Sort::Model, &mut input.proposal);
    }
}

pub fn limit(random: &mut Random, input: &mut Input) {
    input.operation = Operation::Model;
    let pattern = patterns::random(random);
    input.pattern = pattern.to_bytes();
    limits::model::model(random, &pattern, &mut input.proposal);
}

/// A random model for a pattern of many paths, as often as not of many values, so that few ends are equal.
pub fn of_many_paths(random: &mut Random, input: &mut Input) {
    input.operation = Operation::Model;
    let size = paths::Size::random(random);
    let vocabulary = patterns::Vocabulary::random(random);
    let pattern = paths::many(random, vocabulary, size);
    let edges = size.nodes * random.pick(&[1, 2, 2, 3, 4, 8]) * vocabulary.axes / 2;
    input.pattern = pattern.to_bytes();
    let mut model = models::of_size(random, &pattern, vocabulary, [size.nodes, edges]);
    if random.once_in(2) {
        model
            .nodes
            .iter_mut()
            .for_each(|node| node.values = node.values.map(|_| random.below(size.nodes) as u16));
    }
    input.proposal = model.to_bytes();
    rename(random, input);
}

/// A random model for a pattern of one node, of none but nodes, or of any number of nodes and of paths.
pub fn of_nodes_and_paths(random: &mut Random, input: &mut Input) {
    input.operation = Operation::Model;
    let most = random.pick(&[4, 12, MAX_ENTRIES]);
    let nodes = match random.below(4) {
        0 => 1,
        1 => most,
        _ => random.between(1, most),
    };
    let pattern = patterns::of_nodes(random, nodes, most);
    input.pattern = pattern.to_bytes();
    input.proposal = models::random(random, &pattern).to_bytes();
    rename(random, input);
}

/// A random model with edges out of order, as often as not for a pattern that has a closed tableau.
pub fn disordered(random: &mut Random, corpus: &Corpus, input: &mut Input) {
    let closed = random.once_in(2);
    loop {
        if closed {
            of_closed(random, corpus, input);
        } else {
            drawn(random, input);
        }
        if disorder(random, &mut input.proposal) {
            return;
        }
    }
}

pub fn planned(random: &mut Random, corpus: &Corpus, input: &mut Input) {
    input.operation = Operation::Model;
    let planned = any(random, &corpus.met);
    input.pattern.clone_from(&planned.pattern_file);
    input.proposal.clone_from(&planned.proposal_file);
    rename(random, input);
    if input.kind == Kind::MutatedPlannedModel {
        mutate(random, Sort::Model, &mut input.proposal);
    }
}

/// A random model for a pattern that has a closed tableau, so that none meets it.
pub fn of_closed(random: &mut Random, corpus: &Corpus, input: &mut Input) {
    input.operation = Operation::Model;
    input.never = Some(Never::Met);
    let planned = any(random, &corpus.closed);
    input.pattern.clone_from(&planned.pattern_file);
    input.proposal = models::random(random, &planned.pattern).to_bytes();
    rename(random, input);
}

/// Renames in the pattern and in the model: names that are missing are then any of the 128.
fn rename(random: &mut Random, input: &mut Input) {
    let renaming = Renaming::random(random);
    renaming.pattern(&mut input.pattern);
    renaming.model(&mut input.proposal);
}
