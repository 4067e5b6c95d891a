//! Series of inputs that grow in one respect.

use super::case::Case;
use super::inputs::models::{LARGE, Size, in_two_parts, random_model};
use super::inputs::older::older;
use super::inputs::patterns;
use super::inputs::tableaux::{self, Fresh, workshop};
use oracle::pattern::Pattern;
use oracle::tableau::Tableau;

pub struct Series {
    pub title: &'static str,
    /// What is counted.
    pub unit: &'static str,
    pub points: Vec<(usize, Case)>,
}

impl Series {
    fn new<const N: usize>(
        title: &'static str,
        unit: &'static str,
        sizes: [usize; N],
        case: impl Fn(usize) -> Case,
    ) -> Series {
        Series { title, unit, points: sizes.map(|size| (size, case(size))).into() }
    }
}

const ENTRIES: [usize; 4] = [32, 64, 128, 255];
const NODES: [usize; 4] = [8, 16, 32, 64];
const EDGES: [usize; 3] = [64, 512, 4096];

pub fn all() -> Vec<Series> {
    let mut all = by_entries();
    all.extend(by_model());
    all.extend(by_tableau());
    all
}

fn by_entries() -> Vec<Series> {
    let over_large = |pattern: fn(usize) -> Pattern| {
        move |entries| Case::model("", &pattern(entries), &random_model(LARGE, 1))
    };
    let mixed = |entries| patterns::mixed(entries, patterns::SEED);
    vec![
        Series::new("reading, mixed", "entries", ENTRIES, |n| Case::reading("", &mixed(n))),
        Series::new("model, mixed", "entries", ENTRIES, over_large(mixed)),
        Series::new(
            "model, one path of steps",
            "entries",
            ENTRIES,
            over_large(|n| patterns::long_path(n, 8)),
        ),
        Series::new("model, comparisons in tests", "entries", ENTRIES, over_large(patterns::nested_tests)),
        Series::new(
            "model, comparisons of long paths",
            "entries",
            ENTRIES,
            over_large(patterns::sweeping_comparisons),
        ),
    ]
}

fn by_model() -> Vec<Series> {
    let mixed = patterns::mixed(128, patterns::SEED);
    let sweeping = patterns::sweeping_comparisons(128);
    let steps = patterns::long_path(255, 1);
    let typical = patterns::typical();
    let nodes = |nodes| random_model(Size { nodes, edges: nodes * nodes, ..LARGE }, 1);
    let edges = |edges| random_model(Size { edges, ..LARGE }, 1);
    vec![
        Series::new("model, mixed, an eighth of all edges", "nodes", NODES, |n| {
            Case::model("", &mixed, &nodes(n))
        }),
        Series::new("model, comparisons of long paths, an eighth of all edges", "nodes", NODES, |n| {
            Case::model("", &sweeping, &nodes(n))
        }),
        Series::new("model, one path of steps, a graph in two parts", "nodes", NODES, |n| {
            Case::model("", &steps, &in_two_parts(n))
        }),
        Series::new("model, 20 entries", "edges", EDGES, |n| Case::model("", &typical, &edges(n))),
        Series::new("ordering, an eighth repeated", "edges", EDGES, |n| {
            Case::ordering("", &older(Size { edges: n - n / 8, ..LARGE }, 1, n / 8))
        }),
    ]
}

fn by_tableau() -> Vec<Series> {
    let small = workshop(9);
    let steps = [64, 512, 4096];
    let judged = |pattern: &Pattern, tableau: Tableau| Case::tableau("", pattern, &tableau);
    let searches = |lines| Fresh { rule: 5, lines, mixed: false, leaves: 32, names: 30 };
    vec![
        Series::new("tableau, exchanges", "steps", steps, |n| judged(&small, tableaux::exchanges(&small, n))),
        Series::new("tableau, forks and clashes", "steps", steps, |n| {
            judged(&small, tableaux::forks(&small, n))
        }),
        Series::new("tableau, 960 fresh names", "lines", [60, 240, 900], |n| {
            judged(&small, tableaux::fresh(&small, searches(n)))
        }),
        Series::new("tableau, 960 fresh names", "entries", ENTRIES, |n| {
            let pattern = workshop(n);
            judged(&pattern, tableaux::fresh(&pattern, searches(60)))
        }),
    ]
}
