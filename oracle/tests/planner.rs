//! The planner: what it closes is judged closed, what it meets is judged met, and it decides.

mod common;

use std::collections::BTreeSet;

use common::{ENTRIES_A, ENTRIES_G, ENTRIES_H};
use oracle::finding::Finding;
use oracle::model::{self, Model};
use oracle::pattern::{self, Comparison, Entry, Pattern};
use oracle::planner::builder::{Builder, END, MAX_ENTRIES};
use oracle::planner::{Effort, Plan, close, impossible, meet, plan, plan_watched};
use oracle::tableau::rules::LAST_RULE;
use oracle::tableau::{self, Tableau};

/// How many seeds in a row have every mixture of the habits that a seed settles.
const SEEDS: u64 = 16;

fn effort(seed: u64) -> Effort {
    Effort { budget: 10_000, seed }
}

fn is_closed(pattern: &Pattern, tableau: &Tableau) -> bool {
    let finding = tableau::judge(&pattern.to_bytes(), &tableau.to_bytes(), &mut [1; tableau::AREA]);
    matches!(finding, Finding::Closed { .. })
}

fn is_met(pattern: &Pattern, model: &Model) -> bool {
    let finding = model::judge(&pattern.to_bytes(), &model.to_bytes(), &mut [1; model::AREA]);
    matches!(finding, Finding::Met { .. })
}

fn read(entries: &[[u8; 4]]) -> Pattern {
    pattern::parse(&common::pattern(entries)).expect("a good pattern")
}

/// Checks that every plan is a closed tableau if the pattern can't occur, and a model that meets it if it can.
fn check_plans(pattern: &Pattern, can_occur: bool) {
    for seed in 0..SEEDS {
        let plan = plan(pattern, effort(seed));
        let is_right = match &plan {
            Some(Plan::Tableau(tableau)) => !can_occur && is_closed(pattern, tableau),
            Some(Plan::Model(model)) => can_occur && is_met(pattern, model),
            None => false,
        };
        assert!(is_right, "seed {seed}: {plan:?} for {pattern:?}");
    }
}

#[test]
fn impossible_patterns_close() {
    for pattern in impossible::patterns() {
        assert_eq!(pattern::parse(&pattern.to_bytes()), Ok(pattern.clone()));
        check_plans(&pattern, false);
        assert_eq!(meet(&pattern, effort(0)), None);
    }
}

/// The seeds below 8 don't wander, so that each rule is there because it is needed.
#[test]
fn closing_takes_every_rule() {
    let mut used = BTreeSet::new();
    for pattern in impossible::patterns() {
        for tableau in (0..8).filter_map(|seed| close(&pattern, effort(seed))) {
            used.extend(tableau.steps.iter().map(|step| step.rule));
        }
    }
    assert_eq!(used, BTreeSet::from_iter(1..=LAST_RULE));
}

/// One or the other of two patterns that can't occur, by either and without it.
#[test]
fn either_of_two_impossible_patterns_closes() {
    let patterns = impossible::patterns();
    for (pattern, other) in patterns.iter().zip(patterns.iter().skip(1)) {
        for either in [Builder::either, Builder::not_neither] {
            let mut builder = Builder::default();
            let (first, second) = (builder.graft(pattern), builder.graft(other));
            let root = either(&mut builder, first, second);
            let either = builder.finish(root).expect("few entries");
            check_plans(&either, false);
        }
    }
}

#[test]
fn denied_impossible_patterns_are_met() {
    for pattern in impossible::patterns() {
        let mut builder = Builder::default();
        let root = builder.graft(&pattern);
        let root = builder.not(root);
        let denied = builder.finish(root).expect("few entries");
        check_plans(&denied, true);
    }
}

#[test]
fn readings_are_planned() {
    let tableau = close(&read(&ENTRIES_A), effort(0)).expect("reading A closes");
    assert_eq!(tableau.steps.len(), 3);
    check_plans(&read(&ENTRIES_A), false);
    check_plans(&read(&ENTRIES_G), true);
    check_plans(&read(&ENTRIES_H), true);
}

/// Data differ in a ring of three names, one of which is a successor of the others.
#[test]
fn values_names_and_edges_are_met() {
    let mut b = Builder::default();
    let [x, y, z] = [1, 2, 3].map(|name| b.jump(name, END));
    let named = b.name(3);
    let leads = b.after(4, named);
    let tested = b.test(leads, END);
    let (x_leads, y_leads) = (b.jump(1, tested), b.jump(2, tested));
    let demands = [
        b.differ(0, x_leads, y_leads),
        b.differ(0, y, z),
        b.differ(0, z, x),
        b.same(1, x, y),
        b.same(1, z, y),
        b.property(3),
    ];
    let root = b.all(&demands);
    let pattern = b.finish(root).expect("few entries");
    check_plans(&pattern, true);
}

/// Names whose data all differ want more nodes than are guessed: the model is read off an open branch.
#[test]
fn many_different_values_are_met() {
    let mut b = Builder::default();
    let mut demands = Vec::new();
    for name in 0..9 {
        let here = b.jump(name, END);
        for earlier in 0..name {
            let there = b.jump(earlier, END);
            demands.push(b.differ(0, here, there));
        }
    }
    let root = b.all(&demands);
    check_plans(&b.finish(root).expect("some 80 entries"), true);
}

#[test]
fn seeds_repeat_and_vary() {
    let patterns = impossible::patterns();
    let plans = |seed: u64| patterns.iter().map(|pattern| close(pattern, effort(seed))).collect::<Vec<_>>();
    let different: BTreeSet<String> = (0..SEEDS).map(|seed| format!("{:?}", plans(seed))).collect();
    assert_eq!(plans(5), plans(5));
    assert_eq!(different.len() as u64, SEEDS);
}

#[test]
fn budget_is_kept() {
    let pattern = read(&ENTRIES_A);
    assert_eq!(close(&pattern, Effort { budget: 1, seed: 0 }), None);
    assert_eq!(plan(&pattern, Effort { budget: 1, seed: 0 }), None);
}

/// What is found while the budget is watched, and what the watcher was told.
fn watched(pattern: &Pattern, budget: usize) -> (Option<Plan>, Vec<usize>) {
    let mut told = Vec::new();
    let found = plan_watched(pattern, Effort { budget, seed: 0 }, &mut |spent| told.push(spent));
    (found, told)
}

#[test]
fn a_watcher_is_told_what_of_the_budget_is_spent() {
    let pattern = read(&ENTRIES_A);
    assert_eq!(watched(&pattern, 2), (None, vec![0, 1]));
    assert_eq!(watched(&pattern, 1000), (plan(&pattern, effort(0)), vec![0, 1]));
}

/// With 128 names no tableau begins: its half of the budget is passed over.
#[test]
fn a_watcher_is_told_half_of_the_budget_when_models_are_tried() {
    let mut builder = Builder::default();
    (0..128).for_each(|name| {
        builder.name(name);
    });
    let property = builder.property(0);
    let lacking = builder.not(property);
    let root = builder.both(property, lacking);
    let pattern = builder.finish(root).expect("131 entries");
    assert_eq!(watched(&pattern, 10), (None, Vec::from_iter(5..10)));
}

/// Names that the root doesn't reach, or that any node may have, are listed too: without them a model is refused.
#[test]
fn every_name_of_the_pattern_is_in_a_planned_model() {
    let mut b = Builder::default();
    b.name(77);
    b.jump(127, END);
    let (named, other) = (b.name(5), b.name(0));
    let (here, elsewhere) = (b.not(named), b.jump(9, END));
    let equal = b.same(2, END, elsewhere);
    let either = b.both(here, other);
    let denied = b.not(either);
    let root = b.both(denied, equal);
    let pattern = b.finish(root).expect("few entries");
    check_plans(&pattern, true);
    for seed in 0..SEEDS {
        let model = meet(&pattern, effort(seed)).expect("a model");
        assert_eq!(model.names.iter().map(|record| record.0).collect::<Vec<u8>>(), [0, 5, 9, 77, 127]);
    }
}

/// Asks for successors on the axes in this order, of the node and of each of three names.
fn leading_by(axes: &[u8]) -> Pattern {
    let mut b = Builder::default();
    let mut demands = Vec::new();
    for name in 0..3 {
        let here = b.jump(name, END);
        for &axis in axes {
            let property = b.property(axis);
            let leads = b.after(axis, property);
            let tested = b.test(leads, END);
            let there = b.jump(name, tested);
            demands.extend([leads, b.same(0, here, there)]);
        }
    }
    let root = b.all(&demands);
    b.finish(root).expect("few entries")
}

/// A repeat or an edge out of order would be refused. With 128 names the model is guessed.
#[test]
fn edges_of_a_planned_model_rise() {
    for pattern in [leading_by(&[5, 2, 7, 0]), all_names(&[6, 0, 3])] {
        check_plans(&pattern, true);
        for seed in 0..SEEDS {
            let edges = meet(&pattern, effort(seed)).expect("a model").edges;
            assert!(edges.is_sorted_by(|one, next| one < next), "seed {seed}: {edges:?}");
            let axes: BTreeSet<u8> = edges.iter().map(|edge| edge.1).collect();
            assert!(axes.len() > 1, "seed {seed}: {edges:?}");
        }
    }
}

/// A pattern that uses every name and asks for a successor on each of the axes.
fn all_names(axes: &[u8]) -> Pattern {
    let mut b = Builder::default();
    (0..128).for_each(|name| {
        b.name(name);
    });
    let property = b.property(0);
    let demands: Vec<usize> = axes.iter().map(|&axis| b.after(axis, property)).collect();
    let root = b.all(&demands);
    b.finish(root).expect("some 140 entries")
}

/// 128 names are used, so that no name is left to start with; the model is guessed.
#[test]
fn pattern_with_all_names_is_met() {
    let mut builder = Builder::default();
    let names: Vec<usize> = (0..128).map(|name| builder.name(name)).collect();
    let root = builder.not(names[0]);
    let pattern = builder.finish(root).expect("129 entries");
    assert_eq!(close(&pattern, effort(0)), None);
    check_plans(&pattern, true);
}

#[test]
fn builder_shares_and_counts() {
    let mut builder = Builder::default();
    let property = builder.property(0);
    assert_eq!(builder.property(0), property);
    let same = builder.same(2, END, END);
    let later = builder.not(same);
    assert_eq!(later, 2);
    let entries = vec![Entry::Property(0), Entry::Compare(Comparison::Same, 2, None, None)];
    assert_eq!(builder.clone().finish(same), Some(Pattern { entries }));
    let last = (3..MAX_ENTRIES).fold(later, |phi, _| builder.not(phi));
    assert!(builder.clone().finish(last).is_some_and(|pattern| pattern.entries.len() == MAX_ENTRIES));
    let root = builder.not(last);
    assert_eq!(builder.finish(root), None);
}
