//! Judging a model: the working area that it wants, refusal 9, and what is zeroed.

mod common;

use common::*;
use oracle::model::{AREA, area_wanted, judge, judge_old};

/// So many node entries: property 0, then not of the entry before.
fn nots(nodes: u8) -> Vec<[u8; 4]> {
    let first = [1, 0, 0, 0];
    std::iter::once(first).chain((1..nodes).map(|entry| [3, entry - 1, 0, 0])).collect()
}

/// 254 paths, each one step on axis 0 longer than the one before, and the node itself compared with the last.
fn steps_and_one_node() -> Vec<[u8; 4]> {
    let path = |entry: u8| [8, 0, entry.checked_sub(1).unwrap_or(255), 0];
    (0..254).map(path).chain([[6, 0, 253, 255]]).collect()
}

/// Name 9 and properties 2 and 3, which the root doesn't reach, stand before, between and behind paths; the root is
/// same of the node and a fork, a step on axis 0 or one on axis 1 to where property 0 is.
const UNREACHED: [[u8; 4]; 9] = [
    [2, 9, 0, 0],
    [8, 0, 255, 0],
    [1, 2, 0, 0],
    [1, 0, 0, 0],
    [10, 3, 255, 0],
    [8, 1, 4, 0],
    [1, 3, 0, 0],
    [11, 1, 5, 0],
    [6, 0, 7, 255],
];

/// Two nodes, of which the first leads to the second on axis 0; name 9 is the second.
fn two_nodes() -> Vec<u8> {
    model(&[(1, [4; 4]), (1, [4; 4])], &[[9, 1]], &[[0, 0, 1]])
}

/// Checks both judgements: in areas that are as long as wanted or longer, the line and so many bytes zeroed; in those
/// that are shorter, refusal 9 and none.
fn check(entries: &[[u8; 4]], wanted: usize, line: &str) {
    let (file, two_nodes) = (pattern(entries), two_nodes());
    assert_eq!(area_wanted(&file), wanted);
    for judge in [judge, judge_old] {
        for length in [wanted, wanted + 1, wanted + 7, wanted + 8, 2039.max(wanted), 2040, 2041, 9000] {
            check_area(judge, (&file, &two_nodes), length, line, wanted);
        }
        for length in [0, 1, 7, wanted - 8, wanted - 7, wanted - 1] {
            check_area(judge, (&file, &two_nodes), length, "refused 9 0", 0);
        }
    }
}

#[test]
fn one_node_entry_wants_8_bytes() {
    check(&[[1, 0, 0, 0]], 8, "met 0 2");
    check(&[[7, 0, 255, 255]], 8, "unmet");
}

#[test]
fn either_wants_8_bytes_like_any_node_entry() {
    check(&[[1, 0, 0, 0], [12, 0, 0, 0]], 16, "met 0 2");
    check(
        &[[2, 9, 0, 0], [8, 0, 255, 0], [6, 0, 255, 1], [12, 0, 2, 0], [11, 1, 1, 0], [3, 3, 0, 0]],
        32,
        "unmet",
    );
}

#[test]
fn paths_want_none() {
    check(&ENTRIES_G, 24, "unmet");
    check(&ENTRIES_H, 40, "met 0 2");
    check(&steps_and_one_node(), 8, "unmet");
}

#[test]
fn node_entries_that_the_root_does_not_reach_want_theirs() {
    check(&UNREACHED, 40, "met 0 1");
    check(&[[1, 1, 0, 0], [1, 2, 0, 0], [1, 0, 0, 0]], 24, "met 0 2");
}

#[test]
fn every_number_of_node_entries() {
    for nodes in 1..=255 {
        check(&nots(nodes), 8 * nodes as usize, if nodes % 2 == 1 { "met 0 2" } else { "unmet" });
    }
    assert_eq!(area_wanted(&pattern(&nots(255))), AREA);
}

/// Refusals 1 to 8, each with an area of any length.
#[test]
fn a_pattern_that_is_refused_wants_none() {
    let mut versioned = pattern(&[[1, 0, 0, 0]]);
    versioned[3] = 2;
    let refused = [
        (vec![], "refused 1 0"),
        (versioned, "refused 2 0"),
        (pattern(&[]), "refused 3 0"),
        (pattern(&[[1, 0, 0, 0], [13, 0, 255, 0]]), "refused 4 1"),
        (pattern(&[[1, 0, 0, 0], [1, 32, 0, 0]]), "refused 5 1"),
        (pattern(&[[1, 0, 0, 0], [3, 1, 0, 0]]), "refused 6 1"),
        (pattern(&[[1, 0, 0, 0], [1, 0, 0, 0]]), "refused 7 1"),
        (pattern(&[[1, 0, 0, 0], [8, 0, 255, 0]]), "refused 8 1"),
    ];
    for (file, line) in &refused {
        assert_eq!(area_wanted(file), 0);
        for length in [0, 7, 8, 16, 2040, 9000] {
            check_area(judge, (file, &two_nodes()), length, line, 0);
            check_area(judge_old, (file, &[]), length, line, 0);
        }
    }
}

/// The area comes before anything of the model, and no refusal changes it.
#[test]
fn refusal_9_comes_before_those_of_the_model() {
    let file = pattern(&UNREACHED);
    let nodes = [plain(1), plain(2)];
    let mut versioned = two_nodes();
    versioned[3] = 2;
    let refused = [
        (vec![], "refused 10 0"),
        (versioned, "refused 11 0"),
        (model(&[], &[], &[]), "refused 12 0"),
        (model(&nodes, &[[9, 2]], &[]), "refused 13 0"),
        (model(&nodes, &[[9, 0]], &[[0, 0, 0], [0, 8, 1]]), "refused 14 1"),
        (model(&nodes, &[[9, 0]], &[[0, 0, 1], [0, 0, 1]]), "refused 28 1"),
        (model(&nodes, &[[8, 0]], &[[0, 0, 0], [0, 0, 1]]), "refused 27 9"),
    ];
    for (model, line) in &refused {
        for length in [0, 8, 32, 39] {
            check_area(judge, (&file, model), length, "refused 9 0", 0);
        }
        for length in [40, 41, 72, 2040, 9000] {
            check_area(judge, (&file, model), length, line, 0);
        }
    }
}
