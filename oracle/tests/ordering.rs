//! Putting an older model file in order: refusals 10 to 14 and 29, the new file, the destination, and what patterns
//! find in it.

mod common;

use common::*;
use oracle::model::{judge, judge_old, order};

/// Two nodes with everything, names in no order, and these edges.
fn older(edges: &[[u8; 3]]) -> Vec<u8> {
    model(&[(5, [1, 2, 3, 4]), (1 << 31, [0, 0, 0, 65535])], &[[77, 1], [4, 1], [127, 0]], edges)
}

/// What a destination of so many bytes, none of them zero, holds afterwards, and the line.
fn ordered(old: &[u8], length: usize) -> (String, Vec<u8>) {
    let mut destination = filled(length);
    let line = order(old, &mut destination).to_string();
    (line, destination)
}

fn filled(length: usize) -> Vec<u8> {
    (0..length).map(|at| at as u8 | 128).collect()
}

/// Checks that the old file becomes the new one, in a destination that is just long enough, one that is longer, and
/// not in one that is shorter.
fn check(old: &[u8], new: &[u8]) {
    for beyond in [0, 1, 2, 100] {
        let (line, destination) = ordered(old, new.len() + beyond);
        assert_eq!(line, format!("written {}", new.len()));
        assert_eq!(destination[..new.len()], *new);
        assert_eq!(destination[new.len()..], filled(new.len() + beyond)[new.len()..]);
    }
    for length in [new.len() - 1, new.len() / 2, 9, 8, 1, 0] {
        assert_eq!(ordered(old, length), ("refused 29 0".to_string(), filled(length)));
    }
}

#[test]
fn each_edge_once_in_order() {
    let check = |old: &[[u8; 3]], new: &[[u8; 3]]| check(&older(old), &older(new));
    check(&[[1, 0, 0], [0, 0, 1]], &[[0, 0, 1], [1, 0, 0]]);
    check(&[[0, 1, 0], [0, 0, 1]], &[[0, 0, 1], [0, 1, 0]]);
    check(&[[0, 0, 1], [0, 0, 0]], &[[0, 0, 0], [0, 0, 1]]);
    check(&[[0, 0, 1], [0, 0, 1]], &[[0, 0, 1]]);
    check(&[[1, 7, 1]; 5], &[[1, 7, 1]]);
    check(&[[0, 0, 1], [1, 0, 0], [0, 0, 1]], &[[0, 0, 1], [1, 0, 0]]);
    check(
        &[[1, 7, 1], [0, 7, 1], [1, 0, 1], [1, 7, 0], [0, 7, 1], [0, 0, 0], [1, 7, 1]],
        &[[0, 0, 0], [0, 7, 1], [1, 0, 1], [1, 7, 0], [1, 7, 1]],
    );
}

#[test]
fn a_model_in_order_comes_out_as_it_was() {
    for edges in [&[][..], &[[1, 7, 1]], &[[0, 0, 0], [0, 0, 1], [0, 1, 0], [1, 0, 0]]] {
        check(&older(edges), &older(edges));
    }
    check(&model_g(), &model_g());
}

/// The rows of up to four edges, of three that there are.
#[test]
fn every_row_of_edges() {
    let edges = [[0, 1, 1], [1, 0, 1], [1, 1, 0]];
    for length in 0..=4 {
        for row in 0..3usize.pow(length) {
            let row: Vec<[u8; 3]> = (0..length).map(|place| edges[row / 3usize.pow(place) % 3]).collect();
            let kept: Vec<[u8; 3]> = edges.into_iter().filter(|edge| row.contains(edge)).collect();
            check(&older(&row), &older(&kept));
        }
    }
}

#[test]
fn the_longest_file() {
    let names: Vec<[u8; 2]> = (0..128).rev().map(|name| [name, name / 2]).collect();
    let sized = |edges: &[[u8; 3]]| model(&[plain(7); 64], &names, edges);
    let rising: Vec<[u8; 3]> =
        (0..4096usize).map(|edge| [edge / 64, 7, edge % 64].map(|at| at as u8)).collect();
    let falling: Vec<[u8; 3]> = rising.iter().rev().copied().collect();
    assert_eq!(sized(&rising).len(), 13_321);
    check(&sized(&falling), &sized(&rising));
    check(&sized(&[[63, 7, 63]; 4096]), &sized(&[[63, 7, 63]]));
    check(&sized(&[&falling[..2048], &falling[..2048]].concat()), &sized(&rising[2048..]));
}

/// Refusals of the old file come before 29, in any order of edges.
#[test]
fn refusals() {
    let refused = |old: &[u8], line: &str| {
        for length in [0, 8, old.len(), 13_321] {
            assert_eq!(ordered(old, length), (line.to_string(), filled(length)));
        }
    };
    let replaced = |offset: usize, value: u8| {
        let mut bytes = older(&[[1, 0, 0], [0, 0, 0]]);
        bytes[offset] = value;
        bytes
    };
    refused(&[], "refused 10 0");
    refused(b"DAT\x01\x00\x01\x00\x00", "refused 10 0");
    refused(&tableau(0, &STEPS_A), "refused 10 0");
    refused(&replaced(2, b'B'), "refused 10 0");
    refused(&replaced(3, 2), "refused 11 0");
    refused(&replaced(4, 1), "refused 11 0");
    refused(&replaced(5, 1), "refused 12 0");
    refused(&replaced(8, 1), "refused 12 0");
    refused(&[&older(&[])[..], &[0]].concat(), "refused 12 0");
    refused(&model(&[plain(0); 65], &[], &[]), "refused 12 0");
    refused(&model(&[plain(0); 64], &[], &[[0; 3]; 4097]), "refused 12 0");
    let names = |names: &[[u8; 2]]| model(&[plain(0); 2], names, &[[1, 0, 0], [0, 8, 0]]);
    refused(&names(&[[9, 1], [0, 0], [9, 1]]), "refused 13 2");
    refused(&names(&[[128, 0]]), "refused 13 0");
    refused(&names(&[[0, 0], [1, 2]]), "refused 13 1");
    refused(&names(&[]), "refused 14 1");
    refused(&older(&[[1, 0, 0], [1, 0, 0], [0, 0, 0], [0, 0, 2]]), "refused 14 3");
    refused(&older(&[[2, 0, 0], [1, 0, 0]]), "refused 14 0");
}

/// Patterns that find something, nothing, or are refused, by edges, names and areas.
#[test]
fn patterns_find_in_the_new_file_what_they_would_find_in_the_old_one() {
    let patterns = [
        pattern(&[[1, 0, 0, 0], [5, 0, 0, 0]]),
        pattern(&[[1, 31, 0, 0], [5, 7, 0, 0]]),
        pattern(&[[2, 77, 0, 0], [5, 0, 0, 0]]),
        pattern(&[[2, 5, 0, 0], [5, 0, 0, 0]]),
        pattern(&[[8, 0, 255, 0], [7, 0, 0, 255]]),
        pattern(&[[7, 0, 255, 255]]),
        pattern(&[[3, 0, 0, 0]]),
    ];
    let rows = [&[][..], &[[1, 7, 1], [0, 0, 1], [0, 0, 1]], &[[1, 0, 0], [0, 7, 1], [1, 0, 0], [0, 0, 0]]];
    let mut lines = Vec::new();
    for old in rows.map(older) {
        let (_, new) = ordered(&old, older(&[]).len() + 3 * 3);
        let length = older(&[]).len() + 3 * usize::from(new[7]);
        for pattern in &patterns {
            for area in [8, 15, 16, 2040] {
                let (mut one, mut other) = (vec![7; area], vec![7; area]);
                let found = judge(pattern, &new[..length], &mut one);
                assert_eq!(judge_old(pattern, &old, &mut other), found);
                assert_eq!(one, other);
                lines.push(found.to_string());
            }
        }
    }
    for line in ["met 0 2", "met 0 1", "met 1 1", "unmet", "refused 27 5", "refused 9 0", "refused 6 0"] {
        assert!(lines.iter().any(|found| found == line), "{line}");
    }
}

/// An older file is judged by 14 and 27, and without 28, wherever an edge stands.
#[test]
fn an_older_file_judged_without_the_order_of_edges() {
    let line = |entries: &[[u8; 4]], edges: &[[u8; 3]]| {
        judge_old(&pattern(entries), &older(edges), &mut [0; 2040]).to_string()
    };
    let after = [[1, 31, 0, 0], [5, 3, 0, 0]];
    assert_eq!(line(&after, &[[1, 3, 1], [0, 3, 1], [1, 3, 1]]), "met 0 2");
    assert_eq!(line(&after, &[[1, 3, 0], [0, 2, 1]]), "unmet");
    assert_eq!(line(&after, &[[1, 3, 0], [1, 3, 0], [0, 8, 1]]), "refused 14 2");
    assert_eq!(line(&[[2, 5, 0, 0], [2, 3, 0, 0]], &[[1, 3, 0], [0, 3, 1]]), "refused 27 3");
    assert_eq!(line(&[[2, 5, 0, 0]], &[[1, 3, 0], [0, 3, 2]]), "refused 14 1");
}
