//! Either: how it is explained, and "one or the other" by kind 12 and by three nots and a both, the planner's tableaux
//! side by side.

mod common;

use common::{model, model_line, pattern, tableau, tableau_line};
use oracle::explain::explain;
use oracle::model::Model;
use oracle::pattern::Pattern;
use oracle::planner::builder::{Builder, END};
use oracle::planner::impossible::both_ways;
use oracle::planner::{Effort, Plan, plan};
use oracle::random::Random;
use oracle::tableau::Tableau;
use oracle::typed::spell;

/// A tableau of p0 or p1, and not (p1 or p0).
const EXPLAINED: &str = "
  [0] n9 has ((p0|p1)&!(p1|p0))
step 0: rule 2 (has both), P 0
  [1] n9 has (p0|p1)
  [2] n9 has !(p1|p0)
step 1: rule 1 (not), P 2
  [3] n9 lacks (p1|p0)
step 2: rule 25 (lacks either), P 3
  [4] n9 lacks p1
  [5] n9 lacks p0
step 3: rule 24 (has either), P 1
left of step 3:
    [6] n9 has p0
  step 4: rule 21 (clash of signs), P 6, Q 5
    CLASH: [6] n9 has p0 against [5] n9 lacks p0
right of step 3:
    [6] n9 has p1
  step 5: rule 21 (clash of signs), P 4, Q 6
    CLASH: [4] n9 lacks p1 against [6] n9 has p1

Rules used:
  rule 1 (not): P has/lacks !f: lacks/has f
  rule 2 (has both): P has (f&g): has f, then has g
  rule 21 (clash of signs): P and Q alike but for sign: clash
  rule 24 (has either): P has (f|g): fork, has f or has g
  rule 25 (lacks either): P lacks (f|g): lacks f, then lacks g

Finding: closed 6 2 1 7. ";

#[test]
fn either_is_explained() {
    let entries = [[1, 0, 0, 0], [1, 1, 0, 0], [12, 0, 1, 0], [12, 1, 0, 0], [3, 3, 0, 0], [4, 2, 4, 0]];
    let begin = [(2, 0, 0, 0), (1, 2, 0, 0), (25, 3, 0, 0)];
    let end = [(24, 1, 0, 0), (21, 6, 5, 0), (21, 4, 6, 0)];
    let text = explain(&pattern(&entries), &tableau(9, &[begin, end].concat())).to_string();
    assert!(text.contains(EXPLAINED), "{text}");

    let two_nodes = model(&[(1, [0; 4]), (2, [0; 4])], &[], &[]);
    let holding = "  e2 (p0|p1): every node\n  e3 (p1|p0): every node\n  e4 !(p1|p0): nowhere\n";
    let text = explain(&pattern(&entries), &two_nodes).to_string();
    assert!(text.contains(holding), "{text}");
}

/// Patterns that can't occur, and what is found of the tableaux that `plan` writes of them: steps, clashes, forks and
/// most lines, with either as shown, and with three nots and a both in the place of every either.
const TABLE: [[&str; 3]; 10] = [
    ["(p31&!(p0|p31))", "closed 4 1 0 6", "closed 6 1 0 8"],
    ["((((p0|p31)&(p0|!p31))&(!p0|p31))&(!p0|!p31))", "closed 19 6 5 12", "closed 22 6 5 16"],
    ["(((p0|p31)|p16)&!(p0|(p31|p16)))", "closed 9 3 2 10", "closed 15 3 2 16"],
    ["((((n7|n50)&!p0)&[@7?p0=0@7])&[@50?p0=0@50])", "closed 17 2 1 19", "closed 20 2 1 21"],
    ["((<0><5>(p0|p31)&!<0><5>p0)&!<0><5>p31)", "closed 13 2 1 16", "closed 16 2 1 18"],
    ["(<0>p31&!<0>(p0|p31))", "closed 6 1 0 9", "closed 8 1 0 11"],
    ["(([/0?(p0|p31)#1]&![/0?p0#1])&![/0?p31#1])", "closed 18 4 3 19", "closed 21 4 3 21"],
    ["(p0&![?(p0|p31)=3])", "closed 8 2 1 8", "closed 10 2 1 10"],
    ["([{/0|/5}=2]&!([/0=2]|[/5=2]))", "closed 9 2 1 10", "closed 12 2 1 13"],
    ["((([=0@7]|[=0@50])&[#0@7])&[#0@50])", "closed 21 2 1 17", "closed 22 2 1 19"],
];

/// Has two of the three nots itself, so that they clash as they stand: the only one that is shorter without either.
const WITH_NOTS_OF_ITS_OWN: [&str; 3] = ["(((p0|p31)&!p0)&!p31)", "closed 7 2 1 8", "closed 6 2 1 7"];

/// What judging finds of the planner's tableau, and how many steps that has.
fn closed(pattern: &Pattern) -> (String, usize) {
    let Some(Plan::Tableau(found)) = plan(pattern, Effort { budget: 10_000, seed: 0 }) else {
        panic!("no tableau of {pattern:?}");
    };
    (judged(pattern, &found), found.steps.len())
}

fn judged(pattern: &Pattern, tableau: &Tableau) -> String {
    tableau_line(&pattern.to_bytes(), &tableau.to_bytes())
}

#[test]
fn tableaux_are_shorter_with_either() {
    let (table, patterns) = (TABLE.into_iter().chain([WITH_NOTS_OF_ITS_OWN]), both_ways());
    assert_eq!(patterns.len(), TABLE.len() + 1);
    for (row, pattern) in table.zip(patterns) {
        let ((with_either, steps), (with_nots, more)) =
            (closed(&pattern.with_either), closed(&pattern.with_nots));
        let text = spell(&pattern.with_either).expect("a short text");
        assert_eq!([text, with_either, with_nots], row);
        assert_eq!(steps < more, row != WITH_NOTS_OF_ITS_OWN, "{row:?}");
    }
}

/// How "one or the other" is written.
type Either = fn(&mut Builder, usize, usize) -> usize;

/// The same entries for the same chance, but for how "one or the other" is written.
fn any_node(random: &mut Random, b: &mut Builder, either: Either, depth: usize) -> usize {
    if depth == 0 {
        return if random.once_in(4) { b.name(5) } else { b.property(random.below(3) as u8) };
    }
    let phi = any_node(random, b, either, depth - 1);
    match random.below(7) {
        0 => b.not(phi),
        1 => b.after(0, phi),
        2 => {
            let (tested, step) = (b.test(phi, END), b.step(0, END));
            b.differ(0, tested, step)
        }
        way => {
            let psi = any_node(random, b, either, depth - 1);
            if way < 5 { either(b, phi, psi) } else { b.both(phi, psi) }
        }
    }
}

/// Two such entries, and not two others.
fn any_pattern(seed: u64, either: Either) -> Pattern {
    let (mut random, mut b) = (Random::new(seed, 0), Builder::default());
    let [first, second, third, fourth] = [3; 4].map(|depth| any_node(&mut random, &mut b, either, depth));
    let (not_third, not_fourth) = (b.not(third), b.not(fourth));
    let root = b.all(&[first, second, not_third, not_fourth]);
    b.finish(root).expect("few entries")
}

fn found(pattern: &Pattern, model: &Model) -> String {
    model_line(&pattern.to_bytes(), &model.to_bytes())
}

/// Both ways say the same: either a tableau closes each, or a model meets both alike.
#[test]
fn both_ways_are_decided_alike() {
    let mut decided = [0; 2];
    for seed in 0..400 {
        let patterns = [Builder::either, Builder::not_neither].map(|either| any_pattern(seed, either));
        let plans = patterns.each_ref().map(|pattern| plan(pattern, Effort { budget: 10_000, seed }));
        match plans {
            [Some(Plan::Tableau(one)), Some(Plan::Tableau(other))] => {
                decided[0] += 1;
                assert!(judged(&patterns[0], &one).starts_with("closed"), "seed {seed}");
                assert!(judged(&patterns[1], &other).starts_with("closed"), "seed {seed}");
            }
            [Some(Plan::Model(one)), Some(Plan::Model(other))] => {
                decided[1] += 1;
                for model in [one, other] {
                    let [with_either, with_nots] = patterns.each_ref().map(|pattern| found(pattern, &model));
                    assert!(with_either.starts_with("met"), "seed {seed}");
                    assert_eq!(with_either, with_nots, "seed {seed}");
                }
            }
            plans => panic!("seed {seed}: {plans:?}"),
        }
    }
    assert!(decided.iter().all(|&number| number > 40), "{decided:?}");
}
