//! The pages of all samples.

use crate::{flat, names, page};
use oracle::explain::explain;
use oracle::explain::formula::Formula;
use oracle::explain::wording::numbered;
use oracle::finding::Finding;
use oracle::model::{self, Model};
use oracle::pattern::{self, Pattern};
use oracle::random::Random;
use oracle::tableau::rules::{says_fork, uses_q};
use oracle::tableau::walk::Walk;
use oracle::tableau::{self, Tableau};
use std::collections::BTreeSet;
use std::fs;
use std::path::Path;

/// The files of every sample folder; one that isn't there counts as empty.
pub fn all() -> Vec<(String, [Vec<u8>; 2])> {
    let data = Path::new(env!("CARGO_MANIFEST_DIR")).join("../crates/readings/data");
    let names = fs::read_to_string(data.join("samples.txt")).expect("the samples");
    let read = |name: &str, file: &str| fs::read(data.join(name).join(file)).unwrap_or_default();
    let files = |name: &str| ["pattern.bin", "proposal.bin"].map(|file| read(name, file));
    names.lines().map(|name| (name.to_string(), files(name))).collect()
}

#[test]
fn each_is_well_formed_and_has_the_finding_in_words() {
    for (name, [pattern, proposal]) in all() {
        let page = page(&pattern, &proposal);
        let conclusion = explain(&pattern, &proposal).conclusion;
        let finding = page.by_id("finding").expect("the finding");
        let words = format!("{}{}", conclusion.finding, conclusion.words());
        assert!(flat(&finding.text).starts_with(&flat(&words)), "{name}: {}", finding.text);
        assert!(page.text().contains(&names()[0]), "{name}");
        assert!(page.elements.iter().all(|element| element.depth < 400), "{name}");
    }
}

/// A pattern and a model that were read.
fn model_of([pattern, proposal]: &[Vec<u8>; 2]) -> Option<(Pattern, Model)> {
    if proposal.starts_with(b"TAB") {
        return None;
    }
    Some((pattern::parse(pattern).ok()?, model::parse(proposal).ok()?))
}

#[test]
fn every_node_and_edge_is_in_the_page_of_a_block() {
    let mut blocks = 0;
    for (name, files) in all() {
        let Some((_, block)) = model_of(&files) else { continue };
        let page = page(&files[0], &files[1]);
        for (number, node) in block.nodes.iter().enumerate() {
            let drawn =
                page.by_id(&format!("node{number}")).unwrap_or_else(|| panic!("{name}: node {number}"));
            let values = node.values.map(|value| value.to_string()).join(" ");
            assert!(drawn.text.contains(&format!("node {number}")), "{name}: {}", drawn.text);
            assert!(drawn.text.contains(&values), "{name}: {}", drawn.text);
        }
        for (from, axis, to) in &block.edges {
            let title = format!("axis {axis} from {from} to {to}");
            let titled =
                page.elements.iter().filter(|element| element.name == "title" && element.text == title);
            assert_eq!(titled.count(), 1, "{name}: {title}");
        }
        blocks += 1;
    }
    assert!(blocks > 30, "{blocks}");
}

#[test]
fn the_root_is_marked_at_just_the_nodes_where_it_holds() {
    for (name, files) in all() {
        let Some((pattern, block)) = model_of(&files) else { continue };
        let page = page(&files[0], &files[1]);
        let listed = model::check_names(&pattern, &block).is_ok();
        let sets = if listed { model::where_holds(&pattern, &block) } else { vec![vec![false; 64]] };
        let root = sets.last().expect("a root");
        for (number, &holds) in root.iter().enumerate().take(block.nodes.len()) {
            let drawn = page.by_id(&format!("node{number}")).expect("the node");
            assert_eq!(drawn.text.contains("root holds"), holds, "{name}: node {number}");
        }
    }
}

/// A pattern and a tableau that were read.
fn tableau_of([pattern, proposal]: &[Vec<u8>; 2]) -> Option<(Pattern, Tableau)> {
    let pattern = pattern::parse(pattern).ok()?;
    let tableau = tableau::parse(&pattern, proposal).ok()?;
    Some((pattern, tableau))
}

#[test]
fn every_step_and_line_is_in_the_page_of_a_tableau() {
    let mut tableaux = 0;
    for (name, files) in all() {
        let Some((pattern, tableau)) = tableau_of(&files) else { continue };
        let page = page(&files[0], &files[1]);
        let formula = Formula::new(&pattern);
        let lines: String = page.by_class("side").iter().map(|side| flat(&side.text)).collect();
        let mut walk = Walk::begin(&pattern, tableau.start);
        for (number, step) in tableau.steps.iter().enumerate() {
            let drawn = page.by_id(&format!("s{number}")).unwrap_or_else(|| panic!("{name}: step {number}"));
            let (branch, before) = (walk.branch().to_vec(), walk.branch().len());
            let q = uses_q(step.rule).then_some(step.q);
            for (field, attribute) in [(Some(step.p), "data-p"), (q, "data-q")] {
                let used = field.map(usize::from).filter(|&field| walk.is_open() && field < before);
                let text = used.map(|field| flat(&numbered(&formula, &branch, field)));
                let line = page.by_id(drawn.attribute(attribute)).map(|line| flat(&line.text));
                assert_eq!(line, text, "{name}: step {number}: {attribute}");
            }
            if walk.take(step).is_err() {
                break;
            }
            let place = if says_fork(step.rule) { &lines } else { &flat(&drawn.text) };
            for line in before..walk.branch().len() {
                let text = numbered(&formula, walk.branch(), line);
                assert!(place.contains(&flat(&text)), "{name}: step {number}: {text}");
            }
        }
        tableaux += 1;
    }
    assert!(tableaux > 30, "{tableaux}");
}

/// A byte changed, a bit turned, or the end cut off.
fn damaged(random: &mut Random, file: &[u8]) -> Vec<u8> {
    let mut bytes = file.to_vec();
    let at = random.below(bytes.len().max(1));
    match (random.below(3), bytes.get_mut(at)) {
        (0, Some(byte)) => *byte = random.number() as u8,
        (1, Some(byte)) => *byte ^= 1 << random.below(8),
        _ => bytes.truncate(at),
    }
    bytes
}

/// Small samples with a fault by chance: whatever is refused, the page is well-formed and says it.
#[test]
fn damaged_files_have_pages_too() {
    let all = all();
    let small: Vec<&[Vec<u8>; 2]> = all
        .iter()
        .map(|(_, files)| files)
        .filter(|files| files.iter().all(|file| file.len() < 400))
        .collect();
    let mut refusals = BTreeSet::new();
    for number in 0..4000 {
        let random = &mut Random::new(22, number);
        let mut files = small[random.below(small.len())].clone();
        let place = random.below(2);
        files[place] = damaged(random, &files[place]);
        let page = page(&files[0], &files[1]);
        let finding = explain(&files[0], &files[1]).conclusion.finding;
        if let Finding::Refused(refusal) = finding {
            refusals.insert(refusal.number);
            assert!(!page.by_class("fault").is_empty(), "{finding}: {files:?}");
        }
        assert!(page.by_id("finding").expect("the finding").text.starts_with(&finding.to_string()));
    }
    assert!(refusals.len() > 15, "{refusals:?}");
}
