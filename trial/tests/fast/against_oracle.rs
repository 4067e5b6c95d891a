//! The fast implementation against the independent one, on inputs of the benchmark, many of them mutated.

use oracle::model::{self, area_wanted};
use oracle::pattern::{Entry, Pattern};
use oracle::random::Random;
use trial::benchmark::case::{Case, Proposal};
use trial::benchmark::inputs::models::{self, Size, random_model};
use trial::benchmark::inputs::older::{self, older};
use trial::benchmark::inputs::tableaux::{self, Fresh, workshop, workshop_of_either};
use trial::benchmark::inputs::{patterns, readings, texts};
use trial::benchmark::judge::{FAST, ORACLE};

/// Both give the same finding and leave the same area, of this length.
fn agree(case: &Case, length: usize) {
    let [fast, oracle] = [FAST, ORACLE].map(|judge| {
        let mut area = vec![0xa5; length];
        let finding = (judge.finding)(case, &mut area);
        (finding, area)
    });
    assert_eq!(fast.0, oracle.0, "{}: pattern {:?}", case.name, case.pattern);
    assert!(fast.1 == oracle.1, "{}: areas differ after {}", case.name, fast.0);
}

/// A mixed pattern and a small model, different ones for each seed. Now and then names of the pattern are missing.
fn mixed_case(seed: u64) -> Case {
    let mut random = Random::new(seed, 2);
    let size = Size {
        nodes: random.between(1, 64),
        names: if random.once_in(4) { random.below(128) } else { 128 },
        edges: random.below(300),
        axes: random.between(1, 8),
        values: random.between(1, 5),
    };
    let pattern = patterns::mixed(random.between(8, 80), seed);
    Case::model("mixed", &pattern, &random_model(size, seed))
}

#[test]
fn mixed_models() {
    for seed in 0..1500 {
        let case = mixed_case(seed);
        let wanted = area_wanted(&case.pattern);
        for length in [wanted - 8, wanted - 1, wanted, wanted + 1, 2040] {
            agree(&case, length);
        }
    }
}

/// A model that is refused would be timed for nothing.
#[test]
fn models_that_are_timed_are_judged() {
    for case in models::cases() {
        let wanted = area_wanted(&case.pattern);
        agree(&case, wanted);
        let finding = (FAST.finding)(&case, &mut vec![0; wanted]);
        assert!(!finding.starts_with("refused"), "{}: {finding}", case.name);
    }
}

#[test]
fn models_of_every_shape_of_pattern() {
    let shapes = [
        patterns::typical(),
        patterns::shared_nodes(40, Entry::Both),
        patterns::shared_nodes(40, Entry::Either),
        patterns::shared_forks(40),
        patterns::long_path(20, 3),
        patterns::long_after(20),
        patterns::nested_tests(40),
        patterns::sweeping_comparisons(40),
    ];
    for seed in 0..40 {
        let size = Size { nodes: 20, names: 8, edges: 60, axes: 3, values: 1 + seed as usize % 6 };
        for pattern in &shapes {
            agree(&Case::model("shape", pattern, &random_model(size, seed)), model::area(pattern) + 1);
        }
    }
}

/// The bytes with up to three changes: a bit, a byte, two exchanged, or the end cut off.
fn mutate(bytes: &mut Vec<u8>, random: &mut Random) {
    for _ in 0..random.between(1, 3) {
        if bytes.is_empty() {
            return;
        }
        let place = random.below(bytes.len());
        match random.below(16) {
            0 => bytes.truncate(place),
            1 => bytes.push(random.byte()),
            2..=6 => bytes[place] ^= 1 << random.below(8),
            7..=11 => bytes[place] = random.byte() % 32,
            _ => {
                let other = random.below(bytes.len());
                bytes.swap(place, other);
            }
        }
    }
}

/// Judges a case with changed bytes, so many times.
fn agree_mutated(case: &Case, times: u64) {
    let mut random = Random::new(3, case.pattern.len() as u64);
    for _ in 0..times {
        let mut pattern = case.pattern.clone();
        if random.once_in(4) {
            mutate(&mut pattern, &mut random);
        }
        let mut changed = |bytes: &[u8]| {
            let mut bytes = bytes.to_vec();
            mutate(&mut bytes, &mut random);
            bytes
        };
        let proposal = match &case.proposal {
            Proposal::None => Proposal::None,
            Proposal::Area => Proposal::Area,
            Proposal::Model(model) => Proposal::Model(changed(model)),
            Proposal::Tableau(tableau) => Proposal::Tableau(changed(tableau)),
            Proposal::Old(old) => Proposal::Old(changed(old)),
            Proposal::Text(text) => Proposal::Text(changed(text)),
        };
        let wanted = area_wanted(&pattern);
        let length = random.pick(&[8192, 8192, 8191, 2040, wanted, wanted + 1, wanted.saturating_sub(1), 0]);
        agree(&Case { name: case.name.clone(), pattern, proposal }, length);
    }
}

#[test]
fn mutated_readings() {
    for case in &readings() {
        agree_mutated(case, 300);
    }
}

#[test]
fn mutated_models() {
    for seed in 0..60 {
        agree_mutated(&mixed_case(seed), 30);
    }
}

/// An older model, different ones for each seed.
fn older_case(seed: u64) -> Case {
    let mut random = Random::new(seed, 5);
    let size = Size {
        nodes: random.between(1, 64),
        names: random.below(129),
        edges: random.between(1, 8),
        axes: random.between(1, 8),
        values: 2,
    };
    Case::ordering("older", &older(size, seed, random.below(300)))
}

#[test]
fn older_models() {
    for seed in 0..1000 {
        agree(&older_case(seed), 13_321);
        agree(&older_case(seed), 1000);
    }
    for case in older::cases() {
        agree(&case, 13_321);
        agree(&case, 13_320);
    }
}

#[test]
fn mutated_older_models() {
    for seed in 0..60 {
        agree_mutated(&older_case(seed), 30);
    }
}

#[test]
fn texts_and_mutated_texts() {
    for case in texts::cases() {
        for length in [1100, 1026, 1025, 400, 10, 0] {
            agree(&case, length);
        }
        agree_mutated(&case, 500);
    }
}

/// The texts that are timed as the longest have as many bytes as a text may have.
#[test]
fn the_longest_texts_have_1024_bytes() {
    for case in texts::cases() {
        let Proposal::Text(text) = &case.proposal else { panic!("{} is no text", case.name) };
        assert!(text.len() == 1024 || !case.name.starts_with("1,024 bytes"), "{}: {}", case.name, text.len());
    }
}

/// Mutates tableaux of many shapes for a workshop.
fn agree_of_workshop(pattern: &Pattern) {
    let fresh = Fresh { rule: 5, lines: 10, mixed: false, leaves: 5, names: 4 };
    let shapes = [
        tableaux::exchanges(pattern, 100),
        tableaux::chains(pattern, 100),
        tableaux::forks(pattern, 100),
        tableaux::nested(pattern, 0, 64, |_| ()),
        tableaux::nested(pattern, 30, 0, |_| ()),
        tableaux::fresh(pattern, fresh),
        tableaux::fresh(pattern, Fresh { rule: 14, ..fresh }),
        tableaux::fresh(pattern, Fresh { mixed: true, ..fresh }),
    ];
    for tableau in shapes {
        agree_mutated(&Case::tableau("workshop", pattern, &tableau), 500);
    }
}

#[test]
fn mutated_tableaux() {
    agree_of_workshop(&workshop(40));
    agree_of_workshop(&workshop_of_either());
    agree_mutated(&tableaux::cases()[0], 4000);
}
