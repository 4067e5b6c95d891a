//! Other names asked for in a closed tableau: as its start name, or as a name that a step brings.

use oracle::pattern::Pattern;
use oracle::planner::builder::{Builder, END};
use oracle::random::Random;
use oracle::tableau::rules::brings_name;
use oracle::tableau::{HEADER_BYTES, STEP_BYTES};

/// Where the start name stands in a tableau file, and where the rule and the argument stand in a step.
const START: usize = 5;
const RULE: usize = 0;
const ARGUMENT: usize = 5;

/// The pattern with one more entry that has a name, before all others; the pattern itself if it is full. The
/// root doesn't reach the entry unless it was there, and a tableau without the name is judged as before.
pub fn with_name(random: &mut Random, pattern: &Pattern) -> Pattern {
    let mut builder = Builder::default();
    let name = random.below(128) as u8;
    if random.once_in(2) {
        builder.name(name);
    } else {
        builder.jump(name, END);
    }
    let root = builder.graft(pattern);
    builder.finish(root).unwrap_or_else(|| pattern.clone())
}

/// Where the names that the steps of a tableau file bring stand in it.
pub fn brought(tableau: &[u8]) -> impl Iterator<Item = usize> {
    let steps = (HEADER_BYTES..tableau.len()).step_by(STEP_BYTES);
    steps.filter(|step| brings_name(tableau[step + RULE])).map(|step| step + ARGUMENT)
}

/// Makes the start name one that the pattern uses, if it uses any.
pub fn start(random: &mut Random, pattern: &[u8], tableau: &mut [u8]) {
    ask(random, &used(pattern), &mut tableau[START]);
}

/// Makes a name that a step brings one that the pattern uses, or that the tableau has before. If it is fresh
/// all the same, the tableau mostly stays closed: steps speak of lines, not of names.
pub fn fresh(random: &mut Random, pattern: &[u8], tableau: &mut [u8]) {
    let places: Vec<usize> = [START].into_iter().chain(brought(tableau)).collect();
    let step = random.between(1, places.len() - 1);
    let mut names = used(pattern);
    if names.is_empty() || random.below(5) < 2 {
        let first = if random.once_in(2) { step - 1 } else { 0 };
        names = places[first..step].iter().map(|&place| tableau[place]).collect();
    }
    ask(random, &names, &mut tableau[places[step]]);
}

/// Asks for one of the names, now and then for the one 64 apart.
fn ask(random: &mut Random, names: &[u8], asked: &mut u8) {
    if !names.is_empty() {
        *asked = random.pick(names) ^ random.pick(&[0, 0, 0, 64]);
    }
}

/// The names that a valid pattern file uses, one for each entry that has it.
fn used(pattern: &[u8]) -> Vec<u8> {
    let entries = pattern[6..].chunks_exact(4).filter(|entry| matches!(entry[0], 2 | 9));
    entries.map(|entry| entry[1]).collect()
}
