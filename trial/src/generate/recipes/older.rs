//! Older models, to be put in order, and to be judged when they have been.

use super::model;
use crate::generate::age::{age, first_edge};
use crate::generate::corpus::Corpus;
use crate::generate::disorder::spoil;
use crate::generate::input::{Input, Kind, Operation};
use crate::generate::limits::model::longest;
use crate::generate::mutate::{Sort, mutate};
use crate::generate::patterns;
use oracle::random::Random;

/// A model to be put in order: an older one, or one that is in order.
pub fn to_be_ordered(random: &mut Random, corpus: &Corpus, input: &mut Input) {
    let mut ages = input.kind != Kind::ModelInOrder;
    match input.kind {
        Kind::OldModelLimit if random.once_in(4) => {
            let pattern = patterns::random(random);
            longest(random, &pattern, &mut input.proposal);
            ages = !random.once_in(4);
        }
        Kind::OldModelLimit => model::limit(random, input),
        _ if random.once_in(4) => model::planned(random, corpus, input),
        _ => model::drawn(random, input),
    }
    if ages {
        age(random, &mut input.proposal);
    }
    if input.kind == Kind::MutatedOldModel || input.kind == Kind::OldModelLimit && random.once_in(4) {
        spoil_file(random, &mut input.proposal);
    }
    input.operation = Operation::Ordering;
}

/// Puts an edge of an older model out of range, if it has one, or mutates the file.
fn spoil_file(random: &mut Random, file: &mut Vec<u8>) {
    match first_edge(file) {
        Some(first) if random.once_in(2) => {
            let nodes = file[5];
            let edges = file[first..].as_chunks_mut().0;
            let last = edges.len() - 1;
            let place = if random.once_in(4) { last } else { random.between(0, last) };
            spoil(random, &mut edges[place], nodes);
        }
        _ => mutate(random, Sort::Model, file),
    }
}

/// An older model to be judged when put in order, now and then one that can't be.
pub fn judged(random: &mut Random, corpus: &Corpus, input: &mut Input) {
    match random.below(8) {
        0..2 => model::limit(random, input),
        2 => model::planned(random, corpus, input),
        3 => model::of_closed(random, corpus, input),
        _ => model::drawn(random, input),
    }
    age(random, &mut input.proposal);
    if random.once_in(4) {
        spoil_file(random, &mut input.proposal);
    }
    input.operation = Operation::Ordered;
}
