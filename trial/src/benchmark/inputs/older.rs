//! Older models, and the cases of putting one in order.

use super::models::{LARGE, Size, TYPICAL, random_model};
use crate::benchmark::case::Case;
use oracle::model::Model;
use oracle::random::Random;

pub fn cases() -> Vec<Case> {
    let in_order = |size: Size| random_model(size, 1);
    vec![
        Case::ordering("typical, 50 edges, 10 repeats", &older(TYPICAL, 1, 10)),
        Case::ordering("typical, 40 edges, in order", &in_order(TYPICAL)),
        Case::ordering("4,096 edges, 512 repeats", &older(Size { edges: 3584, ..LARGE }, 1, 512)),
        Case::ordering("4,096 edges, no repeats", &older(LARGE, 1, 0)),
        Case::ordering("4,096 edges, in order", &in_order(LARGE)),
        Case::ordering("4,096 times one edge", &older(Size { edges: 1, ..LARGE }, 1, 4095)),
    ]
}

/// A model of that size at random, with so many repeats of its edges besides, which stand in any order.
pub fn older(size: Size, seed: u64, repeats: usize) -> Model {
    let mut random = Random::new(seed, 4);
    let mut model = random_model(size, seed);
    let edges = model.edges.len();
    for _ in 0..repeats {
        model.edges.push(model.edges[random.below(edges)]);
    }
    random.shuffle(&mut model.edges);
    model
}
