//! What a typed pattern means: on random small models the file holds exactly where its text does, the text read with
//! source 000's composition. And what the file is besides: valid, all of it reached, in the order of completion.

mod common;

use common::texts::{self, small_model};
use oracle::model::node_sets;
use oracle::pattern::{self, Pattern};
use oracle::random::Random;
use oracle::typed::{holds, parse, type_pattern};

/// Checks that the entries are all reached, each behind its parts, which were completed in the order of its fields.
fn check_order(pattern: &Pattern, text: &str) {
    let mut completed = Vec::new();
    complete(pattern, pattern.entries.len() - 1, &mut completed);
    assert!(completed.iter().copied().eq(0..pattern.entries.len()), "{text}: {completed:?}");
}

fn complete(pattern: &Pattern, entry: usize, completed: &mut Vec<usize>) {
    pattern.entries[entry].references().for_each(|part| complete(pattern, part, completed));
    if !completed.contains(&entry) {
        completed.push(entry);
    }
}

#[test]
fn the_file_holds_where_the_text_does() {
    let (mut somewhere, mut nowhere) = (0, 0);
    for number in 0..3000 {
        let mut random = Random::new(11, number);
        let text = texts::node(&mut random, 4);
        let Ok(file) = type_pattern(text.as_bytes(), 1026) else { continue };
        let pattern = pattern::parse(&file).expect("a valid pattern");
        check_order(&pattern, &text);
        let tree = parse(text.as_bytes()).expect("it was typed");
        for _ in 0..4 {
            let model = small_model(&mut random);
            let expected = holds(&tree, &model);
            somewhere += usize::from(expected != 0);
            nowhere += usize::from(expected == 0);
            assert_eq!(node_sets(&pattern, &model).pop(), Some(expected), "{text}\n{model:?}");
        }
    }
    assert!(somewhere > 2000 && nowhere > 2000, "{somewhere} {nowhere}");
}
