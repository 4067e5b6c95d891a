//! What `explain` prints of a pattern can be typed back: of every sample, and of patterns of any shape.

mod common;

use common::texts::{self, small_model};
use oracle::explain::explain;
use oracle::model::where_holds;
use oracle::pattern::{self, LONGEST, Pattern};
use oracle::random::Random;
use oracle::typed::{spell, type_pattern};
use std::fs;
use std::path::Path;

/// What is printed as the text to type, and whether it is said to give this very file; none if it is too long.
fn printed(file: &[u8]) -> Option<(String, bool)> {
    let explained = explain(file, b"").to_string();
    let mut said = explained.lines().filter(|line| line.starts_with("Typed") || line.starts_with("Too long"));
    let (Some(line), None) = (said.next(), said.next()) else { panic!("{explained}") };
    let (how, text) = line.split_once(": ").expect("a text");
    (!how.starts_with("Too long")).then(|| (text.to_string(), how == "Typed"))
}

/// Checks that both roots hold at the same nodes of random models.
fn check_same(one: &Pattern, other: &Pattern, text: &str) {
    for number in 0..20 {
        let model = small_model(&mut Random::new(5, number));
        let [one, other] = [one, other].map(|pattern| where_holds(pattern, &model).pop());
        assert_eq!(one, other, "{text}\n{model:?}");
    }
}

/// Types what is printed of a file; gives whether that is the file again, none if it can't be typed.
fn typed_back(file: &[u8]) -> Option<bool> {
    let (text, same) = printed(file)?;
    let again = type_pattern(text.as_bytes(), LONGEST).expect(&text);
    assert_eq!(again == file, same, "{text}");
    let [one, other] = [file, &again].map(|file| pattern::parse(file).expect("a valid pattern"));
    check_same(&one, &other, &text);
    assert_eq!(spell(&other).as_ref(), Some(&text));
    Some(same)
}

#[test]
fn every_sample_pattern() {
    let folder = Path::new(env!("CARGO_MANIFEST_DIR")).join("../crates/readings/data");
    let (mut same, mut another, mut long) = (0, 0, Vec::new());
    for sample in fs::read_dir(folder).expect("the samples") {
        let sample = sample.expect("a sample");
        let file = fs::read(sample.path().join("pattern.bin")).unwrap_or_default();
        if pattern::parse(&file).is_ok() {
            match typed_back(&file) {
                Some(true) => same += 1,
                Some(false) => another += 1,
                None => long.push(sample.file_name()),
            }
        }
    }
    long.sort();
    assert!(same > 120 && another > 15, "{same} {another}");
    assert_eq!(long, ["either_254_deep", "half_of_255_entries_nodes"]);
}

#[test]
fn entries_that_the_root_does_not_reach_or_in_another_order() {
    let unreached = common::pattern(&[[1, 9, 0, 0], [1, 0, 0, 0], [3, 1, 0, 0]]);
    assert_eq!(printed(&unreached), Some(("!p0".to_string(), false)));
    assert_eq!(typed_back(&unreached), Some(false));
    let exchanged = common::pattern(&[[1, 1, 0, 0], [1, 0, 0, 0], [4, 1, 0, 0]]);
    assert_eq!(printed(&exchanged), Some(("(p0&p1)".to_string(), false)));
    assert_eq!(typed_back(&exchanged), Some(false));
}

/// A typed pattern is printed as a text that gives it again.
#[test]
fn typed_patterns() {
    let mut number = 0;
    for seed in 0..500 {
        let text = texts::node(&mut Random::new(6, seed), 4);
        if let Ok(file) = type_pattern(text.as_bytes(), LONGEST) {
            assert_eq!(typed_back(&file), Some(true), "{text}");
            number += 1;
        }
    }
    assert!(number > 400, "{number}");
}
