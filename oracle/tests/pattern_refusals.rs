//! Reading a pattern: refusals 1 to 8, their places and their order.

mod common;

use common::*;

/// The pattern file with one byte replaced.
fn with(mut bytes: Vec<u8>, offset: usize, value: u8) -> Vec<u8> {
    bytes[offset] = value;
    bytes
}

#[test]
fn header() {
    let good = pattern(&[[1, 0, 0, 0]]);
    assert_eq!(read_line(&good), "read 1");
    assert_eq!(read_line(&[]), "refused 1 0");
    assert_eq!(read_line(b"PAT\x02\x00"), "refused 1 0", "five bytes, and the version is wrong too");
    assert_eq!(read_line(&with(good.clone(), 2, b't')), "refused 1 0");
    assert_eq!(read_line(&with(good.clone(), 3, 2)), "refused 2 0");
    assert_eq!(read_line(&with(good.clone(), 4, 1)), "refused 2 0", "the version's high byte");
    assert_eq!(read_line(&with(with(good.clone(), 3, 0), 5, 0)), "refused 2 0", "2 before 3");
    assert_eq!(read_line(&with(good.clone(), 5, 2)), "refused 3 0");
    assert_eq!(read_line(&good[..9]), "refused 3 0");
    assert_eq!(read_line(&[&good[..], &[0]].concat()), "refused 3 0");
    assert_eq!(read_line(&with(pattern(&[[1, 0, 0, 0]; 256]), 5, 0)), "refused 3 0", "256 entries");
}

/// A pattern whose last entry, entry 4, follows a property (0), a name (1), a step (2) and a jump (3).
fn ending_in(entry: [u8; 4]) -> String {
    read_line(&pattern(&[[1, 0, 0, 0], [2, 0, 0, 0], [8, 7, 255, 0], [9, 127, 2, 0], entry]))
}

#[test]
fn kinds() {
    for entry in [[0, 0, 0, 0], [13, 0, 0, 0], [13, 0, 255, 0], [14, 0, 0, 0], [255, 9, 9, 9]] {
        assert_eq!(ending_in(entry), "refused 4 4", "{entry:?}");
    }
}

#[test]
fn ranges_and_unused_fields() {
    let out_of_range = [[1, 32, 0, 0], [2, 128, 0, 0], [5, 8, 0, 0], [6, 4, 255, 255], [7, 4, 2, 255]];
    let paths_out_of_range = [[8, 8, 255, 0], [9, 128, 255, 0]];
    let unused = [[1, 1, 1, 0], [1, 1, 0, 1], [2, 5, 1, 0], [3, 0, 0, 1], [4, 0, 1, 1], [5, 1, 0, 1]];
    let unused_in_paths = [[8, 0, 255, 1], [9, 0, 255, 1], [10, 0, 255, 1], [11, 255, 255, 1]];
    let bad_reference_too = [[5, 8, 200, 0], [3, 200, 1, 0], [7, 4, 0, 255], [8, 8, 0, 0]];
    let all = [&out_of_range[..], &paths_out_of_range, &unused, &unused_in_paths, &bad_reference_too];
    for entry in all.concat() {
        assert_eq!(ending_in(entry), "refused 5 4", "{entry:?}");
    }
}

#[test]
fn references() {
    let not_earlier = [[3, 4, 0, 0], [3, 5, 0, 0], [7, 0, 4, 255], [9, 0, 254, 0]];
    let node_is_a_path = [[3, 2, 0, 0], [4, 0, 3, 0], [4, 2, 0, 0], [5, 0, 2, 0], [10, 2, 255, 0]];
    let node_is_the_end = [[3, 255, 0, 0], [4, 255, 0, 0], [5, 0, 255, 0], [10, 255, 255, 0]];
    let path_is_a_node = [[6, 0, 0, 255], [7, 0, 255, 1], [8, 0, 0, 0], [10, 0, 0, 0], [11, 2, 0, 0]];
    for entry in [&not_earlier[..], &node_is_a_path, &node_is_the_end, &path_is_a_node].concat() {
        assert_eq!(ending_in(entry), "refused 6 4", "{entry:?}");
    }
}

#[test]
fn repeats_path_roots_and_good_roots() {
    for entry in [[1, 0, 0, 0], [2, 0, 0, 0], [9, 127, 2, 0]] {
        assert_eq!(ending_in(entry), "refused 7 4", "{entry:?}");
    }
    for entry in [[8, 7, 3, 0], [9, 0, 255, 0], [10, 0, 2, 0], [11, 255, 255, 0]] {
        assert_eq!(ending_in(entry), "refused 8 4", "{entry:?}");
    }
    let nodes = [[1, 31, 0, 0], [2, 127, 0, 0], [3, 1, 0, 0], [4, 0, 0, 0], [5, 7, 1, 0]];
    for entry in [&nodes[..], &[[6, 3, 255, 255], [7, 3, 2, 3]]].concat() {
        assert_eq!(ending_in(entry), "read 5", "{entry:?}");
    }
}

/// Both parts are earlier nodes, perhaps the same one, and z is zero.
#[test]
fn parts_of_either() {
    for entry in [[12, 0, 1, 0], [12, 1, 0, 0], [12, 1, 1, 0]] {
        assert_eq!(ending_in(entry), "read 5", "{entry:?}");
    }
    for entry in [[12, 0, 1, 1], [12, 1, 1, 255], [12, 2, 9, 4]] {
        assert_eq!(ending_in(entry), "refused 5 4", "{entry:?}");
    }
    for entry in
        [[12, 2, 0, 0], [12, 0, 3, 0], [12, 4, 0, 0], [12, 0, 5, 0], [12, 255, 0, 0], [12, 0, 255, 0]]
    {
        assert_eq!(ending_in(entry), "refused 6 4", "{entry:?}");
    }
}

/// Entries that refer to an either, entry 2.
#[test]
fn either_is_a_node() {
    let then = |entry: [u8; 4]| read_line(&pattern(&[[1, 0, 0, 0], [1, 1, 0, 0], [12, 0, 1, 0], entry]));
    for entry in [[3, 2, 0, 0], [4, 2, 0, 0], [5, 0, 2, 0], [12, 2, 2, 0]] {
        assert_eq!(then(entry), "read 4", "{entry:?}");
    }
    for entry in [[6, 0, 2, 255], [7, 0, 255, 2], [8, 0, 2, 0], [9, 0, 2, 0], [10, 0, 2, 0], [11, 255, 2, 0]]
    {
        assert_eq!(then(entry), "refused 6 3", "{entry:?}");
    }
    assert_eq!(then([10, 2, 255, 0]), "refused 8 3", "a test of it is a path");
    assert_eq!(then([12, 0, 1, 0]), "refused 7 3");
    assert_eq!(then([12, 1, 0, 0]), "read 4", "its parts exchanged are another entry");
}

#[test]
fn entry_by_entry() {
    let repeated_then_unknown = [[1, 0, 0, 0], [1, 1, 0, 0], [1, 1, 0, 0], [0, 0, 0, 0]];
    assert_eq!(read_line(&pattern(&repeated_then_unknown)), "refused 7 2");
    let path_root_but_repeated = [[8, 0, 255, 0], [8, 0, 255, 0]];
    assert_eq!(read_line(&pattern(&path_root_but_repeated)), "refused 7 1");
}

#[test]
fn as_many_entries_as_there_can_be() {
    let mut entries = vec![[1, 0, 0, 0]];
    entries.extend((0..254).map(|below| [4, below, below, 0]));
    assert_eq!(read_line(&pattern(&entries)), "read 255");
    let parsed = oracle::pattern::parse(&pattern(&entries)).unwrap();
    assert_eq!(parsed.to_bytes(), pattern(&entries));
}
