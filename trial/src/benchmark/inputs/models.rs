//! Models, and the cases of judging one.

use super::patterns;
use crate::benchmark::case::Case;
use oracle::model::{Edge, Model, Node};
use oracle::pattern::{Entry, Pattern};
use oracle::random::Random;

/// The size of a random model.
#[derive(Clone, Copy)]
pub struct Size {
    pub nodes: usize,
    /// Names 0 up to this number are listed.
    pub names: usize,
    pub edges: usize,
    /// Edges are spread over axes 0 up to this number.
    pub axes: usize,
    /// Each channel has values below this number.
    pub values: usize,
}

pub const TYPICAL: Size = Size { nodes: 16, names: 8, edges: 40, axes: 3, values: 6 };
/// Lists every name, as the mixed patterns want it.
const ALL_NAMES: Size = Size { names: 128, ..TYPICAL };
pub const LARGE: Size = Size { nodes: 64, names: 128, edges: 4096, axes: 8, values: 65536 };
/// Every node leads to every node, on one axis.
const COMPLETE: Size = Size { axes: 1, ..LARGE };
/// Nothing differs, so that every pair is compared in vain.
const ONE_VALUE: Size = Size { values: 1, ..COMPLETE };
const SPARSE: Size = Size { edges: 512, ..LARGE };
const FEW_VALUES: Size = Size { values: 4, ..LARGE };

/// A model of that size at random; its edges rise.
pub fn random_model(size: Size, seed: u64) -> Model {
    let mut random = Random::new(seed, 1);
    let node = |random: &mut Random| Node {
        properties: random.number() as u32,
        values: [(); 4].map(|()| random.below(size.values) as u16),
    };
    let nodes = (0..size.nodes).map(|_| node(&mut random)).collect();
    let names = (0..size.names).map(|name| (name as u8, random.below(size.nodes) as u8)).collect();
    let pairs = size.nodes * size.nodes;
    let mut places: Vec<usize> = (0..pairs * size.axes).collect();
    let mut edges: Vec<Edge> = (0..size.edges.min(places.len()))
        .map(|_| {
            let place = places.swap_remove(random.below(places.len()));
            let (axis, pair) = (place / pairs, place % pairs);
            ((pair / size.nodes) as u8, axis as u8, (pair % size.nodes) as u8)
        })
        .collect();
    edges.sort_unstable();
    Model { nodes, names, edges }
}

/// Every node leads to every node, on one axis, but for the last, which leads to itself alone: a path never leads to
/// all nodes.
pub fn in_two_parts(nodes: usize) -> Model {
    let mut model = random_model(Size { nodes, ..COMPLETE }, 1);
    let last = (nodes - 1) as u8;
    model.edges.retain(|&(from, _, to)| (from == last) == (to == last));
    model
}

fn judged(name: &str, pattern: &Pattern, size: Size) -> Case {
    Case::model(name, pattern, &random_model(size, 1))
}

pub fn cases() -> Vec<Case> {
    let typical = patterns::typical();
    let mixed = patterns::mixed(255, patterns::SEED);
    let mut cases = vec![
        judged("typical", &typical, TYPICAL),
        judged("typical, contradiction", &patterns::contradicted(patterns::typical()), TYPICAL),
        judged("large, mixed", &mixed, LARGE),
        judged(
            "large, mixed, contradiction",
            &patterns::contradicted(patterns::mixed(255, patterns::SEED)),
            LARGE,
        ),
        judged("large, mixed, four values", &mixed, FEW_VALUES),
        judged("large, mixed, 512 edges", &mixed, SPARSE),
        judged("small pattern, large model", &typical, LARGE),
        judged("large pattern, small model", &mixed, ALL_NAMES),
        judged("both shared, 2^126 routes", &patterns::shared_nodes(255, Entry::Both), LARGE),
        judged("either shared, 2^126 routes", &patterns::shared_nodes(255, Entry::Either), LARGE),
        judged("forks shared, 252 deep", &patterns::shared_forks(255), LARGE),
        judged("254 steps, 8 axes", &patterns::long_path(255, 8), LARGE),
        judged("254 steps, complete graph", &patterns::long_path(255, 1), COMPLETE),
        judged("254 after", &patterns::long_after(255), LARGE),
    ];
    cases.extend(of_comparisons());
    cases
}

/// Cases of many comparisons, and those in a graph in two parts.
fn of_comparisons() -> Vec<Case> {
    let apart = |name: &str, pattern: &Pattern| Case::model(name, pattern, &in_two_parts(64));
    vec![
        judged("comparisons in tests, nested", &patterns::nested_tests(255), LARGE),
        judged("comparisons in tests, complete", &patterns::nested_tests(255), COMPLETE),
        judged("85 comparisons of long paths", &patterns::sweeping_comparisons(255), LARGE),
        judged("the same, four values", &patterns::sweeping_comparisons(255), FEW_VALUES),
        judged("64 comparisons in tests, 127 steps", &patterns::tests_before_a_long_path(255), LARGE),
        judged("128 comparisons, 127 unreached", &patterns::unreached_comparisons(255), ONE_VALUE),
        judged("rounds, 41 paths in use", &patterns::rounds_of_a_kept_path(), LARGE),
        judged("rounds, more in use than slots", &patterns::rounds_beside_lost_paths(8), LARGE),
        apart("the same, a graph in two parts", &patterns::rounds_beside_lost_paths(1)),
        judged("rounds of a path that lost its rows", &patterns::rounds_of_a_lost_path(8), LARGE),
        apart("the same, a graph in two parts", &patterns::rounds_of_a_lost_path(1)),
        apart("254 steps, a graph in two parts", &patterns::long_path(255, 1)),
        apart("false test before 250 steps there", &patterns::false_test(255)),
    ]
}
