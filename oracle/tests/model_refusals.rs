//! Judging a model: refusals 10 to 14, 27 and 28, and the limits.

mod common;

use common::*;

/// A pattern that every node meets: not a differing from itself.
fn anywhere() -> Vec<u8> {
    pattern(&[[7, 0, 255, 255], [3, 0, 0, 0]])
}

/// Two nodes, two names, two edges.
fn small() -> Vec<u8> {
    model(&[plain(1), plain(2)], &[[5, 1], [127, 0]], &[[0, 7, 1], [1, 0, 0]])
}

fn replaced(offset: usize, value: u8) -> Vec<u8> {
    let mut bytes = small();
    bytes[offset] = value;
    bytes
}

#[test]
fn header() {
    assert_eq!(model_line(&anywhere(), &small()), "met 0 2");
    assert_eq!(model_line(&anywhere(), &[]), "refused 10 0");
    assert_eq!(model_line(&anywhere(), b"DAT\x02\x00\x01\x00\x00"), "refused 10 0", "eight bytes");
    assert_eq!(model_line(&anywhere(), &replaced(0, b'd')), "refused 10 0");
    assert_eq!(model_line(&anywhere(), &tableau(0, &STEPS_A)), "refused 10 0");
    assert_eq!(model_line(&anywhere(), &replaced(3, 0)), "refused 11 0");
    assert_eq!(model_line(&anywhere(), &replaced(4, 1)), "refused 11 0");
    assert_eq!(model_line(&anywhere(), &replaced(5, 0)), "refused 12 0");
    assert_eq!(model_line(&anywhere(), &replaced(6, 1)), "refused 12 0");
    assert_eq!(model_line(&anywhere(), &replaced(7, 1)), "refused 12 0");
    assert_eq!(model_line(&anywhere(), &small()[..small().len() - 1]), "refused 12 0");
    assert_eq!(model_line(&anywhere(), &[&small()[..], &[0]].concat()), "refused 12 0");
}

/// So many edges of 64 nodes, the first ones in order.
fn rising(edges: usize) -> Vec<[u8; 3]> {
    (0..edges).map(|edge| [edge / 512, edge / 64 % 8, edge % 64].map(|field| field as u8)).collect()
}

#[test]
fn limits_exact_and_one_over() {
    let names: Vec<[u8; 2]> = (0..129).map(|name| [name, 0]).collect();
    let sized = |nodes, names: &[[u8; 2]], edges| {
        model_line(&anywhere(), &model(&vec![plain(0); nodes], names, &rising(edges)))
    };
    assert_eq!(sized(64, &names[..128], 4096), "met 0 64");
    assert_eq!(sized(0, &[], 0), "refused 12 0");
    assert_eq!(sized(65, &[], 0), "refused 12 0");
    assert_eq!(sized(1, &names, 0), "refused 12 0");
    assert_eq!(sized(64, &[], 4097), "refused 12 0");
}

#[test]
fn records() {
    let with = |names: &[[u8; 2]], edges: &[[u8; 3]]| {
        model_line(&anywhere(), &model(&[plain(1), plain(2)], names, edges))
    };
    assert_eq!(with(&[[0, 0], [128, 0]], &[]), "refused 13 1");
    assert_eq!(with(&[[0, 2]], &[]), "refused 13 0");
    assert_eq!(with(&[[9, 1], [0, 0], [9, 1]], &[]), "refused 13 2");
    assert_eq!(with(&[], &[[0, 0, 1], [2, 0, 1]]), "refused 14 1");
    assert_eq!(with(&[], &[[0, 8, 1]]), "refused 14 0");
    assert_eq!(with(&[], &[[0, 0, 0], [0, 0, 1], [0, 0, 2]]), "refused 14 2");
    assert_eq!(with(&[[0, 0], [0, 0]], &[[9, 9, 9]]), "refused 13 1", "all names before any edge");
}

/// Property 0, beside names 90, 4 and 40 and jumps to 40 and 127, none of which the root reaches.
fn names_unreached() -> Vec<u8> {
    pattern(&[
        [2, 90, 0, 0],
        [2, 4, 0, 0],
        [9, 40, 255, 0],
        [9, 127, 255, 0],
        [2, 40, 0, 0],
        [9, 40, 3, 0],
        [1, 0, 0, 0],
    ])
}

/// A model of two nodes that lists the names, each as node 1.
fn listing(names: &[u8]) -> Vec<u8> {
    let names: Vec<[u8; 2]> = names.iter().map(|&name| [name, 1]).collect();
    model(&[plain(1), plain(2)], &names, &[[0, 7, 1]])
}

#[test]
fn every_name_of_the_pattern_is_listed() {
    let line = |names: &[u8]| model_line(&names_unreached(), &listing(names));
    assert_eq!(line(&[]), "refused 27 4", "the lowest, though not of the first entry");
    assert_eq!(line(&[40]), "refused 27 4");
    assert_eq!(line(&[4]), "refused 27 40");
    assert_eq!(line(&[127, 4, 40]), "refused 27 90");
    assert_eq!(line(&[90, 4, 40]), "refused 27 127", "of a jump");
    assert_eq!(line(&[90, 127, 40]), "refused 27 4");
    assert_eq!(line(&[0, 1, 2, 3, 5, 41, 90, 126, 127]), "refused 27 4", "other names don't help");
    assert_eq!(line(&[90, 4, 127, 40]), "unmet");
    assert_eq!(line(&[126, 90, 4, 0, 127, 40]), "unmet");
}

/// An entry that has the name: even ones are named, odd ones jumped to.
fn user(name: u8) -> [u8; 4] {
    if name.is_multiple_of(2) { [2, name, 0, 0] } else { [9, name, 255, 0] }
}

#[test]
fn any_name_may_be_missing() {
    let users: Vec<[u8; 4]> = (0..128).map(user).collect();
    let every_name = pattern(&[&users[..], &[[3, 126, 0, 0]]].concat());
    let every: Vec<u8> = (0..128).collect();
    assert_eq!(model_line(&every_name, &listing(&every)), "met 0 1", "not the node with name 126");
    for missing in 0..128 {
        let but_one: Vec<u8> = (0..128).rev().filter(|&name| name != missing).collect();
        let expected = format!("refused 27 {missing}");
        assert_eq!(model_line(&every_name, &listing(&but_one)), expected);
        let one_name = pattern(&[user(missing), [1, 0, 0, 0]]);
        assert_eq!(model_line(&one_name, &listing(&but_one)), expected);
        assert_eq!(model_line(&one_name, &listing(&[missing])), "unmet");
    }
}

#[test]
fn a_pattern_without_names_needs_none() {
    assert_eq!(model_line(&anywhere(), &listing(&[])), "met 0 2");
    assert_eq!(model_line(&anywhere(), &listing(&[3])), "met 0 2");
}

/// Name 5 and a differ from it, which a tableau closes.
#[test]
fn a_closed_tableau_changes_nothing() {
    let never = pattern(&[[2, 5, 0, 0], [9, 5, 255, 0], [7, 3, 255, 1], [4, 0, 2, 0]]);
    let steps = [
        (2, 0, 0, 0),
        (4, 1, 0, 0),
        (17, 3, 0, 0),
        (18, 4, 0, 3),
        (7, 2, 0, 0),
        (8, 6, 0, 0),
        (9, 7, 0, 0),
        (22, 5, 8, 0),
    ];
    assert_eq!(tableau_line(&never, &tableau(0, &steps)), "closed 8 1 0 9");
    assert_eq!(model_line(&never, &listing(&[4])), "refused 27 5");
    assert_eq!(model_line(&never, &listing(&[5])), "unmet");
}

#[test]
fn all_edges_before_any_name_of_the_pattern() {
    let with = |names: &[[u8; 2]], edges: &[[u8; 3]]| {
        model_line(&names_unreached(), &model(&[plain(1), plain(2)], names, edges))
    };
    assert_eq!(with(&[[40, 0]], &[[0, 0, 1], [1, 0, 0]]), "refused 27 4");
    assert_eq!(with(&[[40, 0]], &[[0, 0, 1], [1, 0, 2]]), "refused 14 1", "the last edge");
    assert_eq!(with(&[[40, 0]], &[[0, 8, 1], [1, 0, 0]]), "refused 14 0");
    assert_eq!(with(&[[40, 0], [40, 0]], &[]), "refused 13 1");
    assert_eq!(with(&[[40, 2]], &[]), "refused 13 0");
}

/// The line for a model of three nodes with these edges.
fn edges_line(edges: &[[u8; 3]]) -> String {
    model_line(&anywhere(), &model(&[plain(0); 3], &[], edges))
}

#[test]
fn edges_rise_by_from_then_axis_then_to() {
    let number = |[from, axis, to]: [u8; 3]| u32::from(from) * 10_000 + u32::from(axis) * 100 + u32::from(to);
    let fields = |values: [u8; 3]| values.map(|value| value % 3);
    let edges = || (0..27).map(|edge| fields([edge / 9, edge / 3, edge]));
    for before in edges() {
        for edge in edges() {
            let line = if number(before) < number(edge) { "met 0 3" } else { "refused 28 1" };
            assert_eq!(edges_line(&[before, edge]), line, "{before:?}, {edge:?}");
        }
    }
    assert_eq!(edges_line(&[[0, 7, 2], [1, 0, 0], [1, 1, 2], [1, 2, 0], [1, 2, 1]]), "met 0 3");
    assert_eq!(edges_line(&[[1, 2, 0], [1, 1, 2]]), "refused 28 1", "rises by from, to, axis");
    assert_eq!(edges_line(&[[1, 7, 0], [0, 7, 1]]), "refused 28 1", "rises by to, axis, from");
}

#[test]
fn an_edge_comes_after_the_one_before_it() {
    assert_eq!(edges_line(&[[0, 0, 0], [0, 0, 2], [0, 0, 1]]), "refused 28 2", "though after record 0");
    assert_eq!(edges_line(&[[0, 0, 0], [0, 0, 1], [0, 0, 0]]), "refused 28 2", "a repeat of another");
    assert_eq!(edges_line(&[[0, 0, 1], [0, 0, 1], [0, 0, 1]]), "refused 28 1", "the first of two");
    assert_eq!(edges_line(&[[0, 0, 1], [0, 0, 0], [0, 0, 2]]), "refused 28 1", "though the next rises");
    assert_eq!(edges_line(&[[2, 7, 2], [1, 0, 0]]), "refused 28 1");
}

#[test]
fn edge_record_0_has_none_before_it() {
    assert_eq!(edges_line(&[]), "met 0 3");
    assert_eq!(edges_line(&[[0, 0, 0]]), "met 0 3");
    assert_eq!(edges_line(&[[2, 7, 2]]), "met 0 3");
    let named = |edges: &[[u8; 3]]| model(&[plain(0); 3], &[[2, 2], [1, 2]], edges);
    assert_eq!(model_line(&anywhere(), &named(&[[0, 0, 0]])), "met 0 3", "nor a name record");
}

#[test]
fn range_and_order_of_edges_record_by_record() {
    assert_eq!(edges_line(&[[0, 0, 1], [0, 0, 0], [0, 8, 0]]), "refused 28 1", "before a later 14");
    assert_eq!(edges_line(&[[0, 0, 1], [0, 0, 1], [3, 9, 3]]), "refused 28 1");
    assert_eq!(edges_line(&[[0, 0, 1], [0, 0, 3], [0, 0, 0]]), "refused 14 1", "after an earlier 14");
    assert_eq!(edges_line(&[[3, 0, 0], [0, 0, 0]]), "refused 14 0");
    assert_eq!(edges_line(&[[1, 0, 0], [0, 8, 0]]), "refused 14 1", "14 first in one record");
    assert_eq!(edges_line(&[[1, 0, 0], [0, 0, 3]]), "refused 14 1");
    assert_eq!(edges_line(&[[0, 1, 0], [0, 0, 255]]), "refused 14 1");
}

#[test]
fn all_edges_rise_before_any_name_of_the_pattern() {
    let with = |names: &[[u8; 2]], edges: &[[u8; 3]]| {
        model_line(&names_unreached(), &model(&[plain(1), plain(2)], names, edges))
    };
    assert_eq!(with(&[], &[[0, 0, 0], [0, 0, 1], [0, 0, 1]]), "refused 28 2");
    assert_eq!(with(&[], &[[0, 0, 0], [0, 0, 1], [1, 0, 0]]), "refused 27 4");
    assert_eq!(with(&[[4, 0], [4, 0]], &[[0, 0, 1], [0, 0, 1]]), "refused 13 1", "names' records first");
}

#[test]
fn every_edge_of_4096_is_compared() {
    let of_edges = |edges: &[[u8; 3]]| model_line(&anywhere(), &model(&[plain(0); 64], &[], edges));
    let edges = rising(4096);
    assert_eq!(of_edges(&edges), "met 0 64");
    for place in [1, 2, 63, 64, 255, 256, 257, 511, 512, 4094, 4095] {
        let mut repeated = edges.clone();
        repeated[place] = repeated[place - 1];
        assert_eq!(of_edges(&repeated), format!("refused 28 {place}"));
    }
}
