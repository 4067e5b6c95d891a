//! Where entries hold and paths lead in a model.

mod common;

use common::*;
use oracle::model::{parse, where_holds};

/// Nodes 0 to 3: property 0 at 1 and 31 at 3; name 7 is node 2, name 9 node 0; axis 1 from 0 to 1 and 2, axis 4
/// from 2 to 3; channel 2 has values 5, 6, 5, 7.
fn sample() -> Vec<u8> {
    let node = |properties, value| (properties, [0, 0, value, 0]);
    model(
        &[node(0, 5), node(1, 6), node(0, 5), node(1 << 31, 7)],
        &[[7, 2], [9, 0]],
        &[[0, 1, 1], [0, 1, 2], [2, 4, 3]],
    )
}

/// The nodes where the last entry holds.
fn holds(entries: &[[u8; 4]]) -> Vec<usize> {
    let pattern = oracle::pattern::parse(&pattern(entries)).unwrap();
    let flags = where_holds(&pattern, &parse(&sample()).unwrap()).pop().unwrap();
    assert_eq!(flags.len(), 4);
    (0..4).filter(|&node| flags[node]).collect()
}

#[test]
fn nodes() {
    assert_eq!(holds(&[[1, 0, 0, 0]]), [1]);
    assert_eq!(holds(&[[1, 31, 0, 0]]), [3]);
    assert_eq!(holds(&[[2, 7, 0, 0]]), [2]);
    assert_eq!(holds(&[[2, 9, 0, 0]]), [0]);
    assert_eq!(holds(&[[1, 0, 0, 0], [3, 0, 0, 0]]), [0, 2, 3]);
    assert_eq!(holds(&[[1, 0, 0, 0], [3, 0, 0, 0], [2, 7, 0, 0], [4, 1, 2, 0]]), [2]);
    assert_eq!(holds(&[[1, 0, 0, 0], [5, 1, 0, 0]]), [0]);
    assert_eq!(holds(&[[1, 0, 0, 0], [5, 4, 0, 0]]), [] as [usize; 0]);
    assert_eq!(holds(&[[1, 31, 0, 0], [5, 4, 0, 0], [5, 1, 1, 0]]), [0]);
}

#[test]
fn either_holds_where_at_least_one_part_does() {
    let (p0, p31, name_7) = ([1, 0, 0, 0], [1, 31, 0, 0], [2, 7, 0, 0]);
    assert_eq!(holds(&[p0, p31, [12, 0, 1, 0]]), [1, 3]);
    assert_eq!(holds(&[p0, p31, [12, 1, 0, 0]]), [1, 3]);
    assert_eq!(holds(&[p0, [12, 0, 0, 0]]), [1], "both parts one entry");
    assert_eq!(holds(&[p0, [3, 0, 0, 0], [12, 0, 1, 0]]), [0, 1, 2, 3]);
    assert_eq!(holds(&[p0, p31, [12, 0, 1, 0], [3, 2, 0, 0]]), [0, 2]);
    assert_eq!(holds(&[p0, p31, [12, 0, 1, 0], name_7, [12, 3, 2, 0]]), [1, 2, 3]);
    assert_eq!(holds(&[p0, name_7, [3, 0, 0, 0], [12, 1, 2, 0]]), [0, 2, 3], "both parts hold at node 2");
    assert_eq!(holds(&[[1, 1, 0, 0], [1, 2, 0, 0], [12, 0, 1, 0]]), [] as [usize; 0]);
}

#[test]
fn either_below_other_entries() {
    let (p0, name_7, either) = ([1, 0, 0, 0], [2, 7, 0, 0], [12, 0, 1, 0]);
    assert_eq!(holds(&[p0, name_7, either, [5, 1, 2, 0]]), [0]);
    let tested = [10, 2, 255, 0];
    assert_eq!(holds(&[p0, name_7, either, tested, [6, 2, 3, 255]]), [1, 2], "a test of it");
    assert_eq!(holds(&[p0, name_7, either, tested, [8, 1, 3, 0], [6, 2, 4, 255]]), [0], "node 2 passes");
    assert_eq!(holds(&[p0, name_7, either, tested, [8, 1, 3, 0], [7, 2, 4, 255]]), [0], "and so does node 1");
}

#[test]
fn paths() {
    let none = [] as [usize; 0];
    let step = [8, 1, 255, 0];
    assert_eq!(holds(&[step, [6, 2, 0, 255]]), [0], "node 2 has node 0's value");
    assert_eq!(holds(&[step, [7, 2, 0, 255]]), [0], "node 1 has another");
    assert_eq!(holds(&[step, [7, 0, 0, 255]]), none, "channel 0 is alike everywhere");
    assert_eq!(holds(&[[9, 7, 255, 0], [6, 2, 0, 255]]), [0, 2], "jump to node 2");
    assert_eq!(holds(&[[8, 4, 255, 0], [9, 7, 0, 0], [7, 2, 1, 255]]), [0, 1, 2], "on to node 3");
    assert_eq!(holds(&[[1, 0, 0, 0], [10, 0, 255, 0], [6, 2, 1, 1]]), [1], "test");
    assert_eq!(holds(&[[1, 0, 0, 0], [10, 0, 255, 0], [8, 1, 1, 0], [6, 2, 2, 255]]), none);
    assert_eq!(holds(&[[1, 0, 0, 0], [10, 0, 255, 0], [8, 1, 1, 0], [7, 2, 2, 255]]), [0]);
    assert_eq!(holds(&[step, [8, 4, 255, 0], [11, 0, 1, 0], [7, 2, 2, 255]]), [0, 2], "fork");
}

#[test]
fn node_0_stands_in_for_a_name_that_is_not_listed() {
    let model = parse(&sample()).unwrap();
    assert_eq!([7, 8, 9].map(|name| model.lists(name)), [true, false, true]);
    assert_eq!([7, 8, 9].map(|name| model.node_of(name)), [2, 0, 0]);
}

#[test]
fn met_counts_the_nodes_and_gives_the_lowest() {
    let not_property = pattern(&[[1, 0, 0, 0], [2, 9, 0, 0], [3, 0, 0, 0], [3, 1, 0, 0], [4, 2, 3, 0]]);
    assert_eq!(model_line(&not_property, &sample()), "met 2 2");
}

#[test]
fn shared_entries_are_met_once() {
    // Each fork leads to the one before by two routes, each test by one more.
    let mut entries = vec![[1, 0, 0, 0], [3, 0, 0, 0], [8, 1, 255, 0]];
    for level in 0..120u8 {
        let below = 2 * level + 2;
        entries.push([11, below, below, 0]);
        entries.push([10, 1, below + 1, 0]);
    }
    entries.push([6, 2, entries.len() as u8 - 1, 255]);
    assert_eq!(holds(&entries), [0]);
}

#[test]
fn model_files_are_written_as_they_were_read() {
    assert_eq!(parse(&sample()).unwrap().to_bytes(), sample());
}
