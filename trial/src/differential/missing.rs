//! What a run must see: every finding, refusal, limit and kind of input, every rule often, each name refused in every
//! way, each length of area wanted, and each number and each wrong byte of a text.

use super::grids::GRIDS;
use super::names::EACH_NAME;
use super::situations::{SITUATIONS, Situations};
use super::tally::Tally;
use crate::generate::input::{Kind, Operation};
use oracle::model;
use oracle::pattern::MAX_NAME;
use oracle::planner::builder::MAX_ENTRIES;

/// Each rule must be used by one closed tableau for so many inputs.
const INPUTS_FOR_A_RULE: u64 = 1000;

impl Tally {
    /// What a run must have seen and this one hasn't.
    pub fn missing(&self) -> Vec<String> {
        let mut seen = vec![
            (self.read, "finding read".to_string()),
            (self.met, "finding met".to_string()),
            (self.unmet, "finding unmet".to_string()),
            (self.closed, "finding closed".to_string()),
            (self.written, "finding written".to_string()),
            (self.unmet_as_closed, "a model judged for a pattern with a closed tableau".to_string()),
            (self.open_as_met, "a tableau judged for a pattern with a model that meets it".to_string()),
        ];
        for operation in Operation::ALL {
            seen.extend(refusals(operation).map(|number| {
                let times = self.refused(operation, number).times;
                (times, format!("refusal {number} of {}", words(operation)))
            }));
        }
        self.add_rules(&mut seen);
        self.add_situations(&mut seen);
        for length in (0..=model::AREA).step_by(model::AREA / MAX_ENTRIES) {
            seen.push((self.areas.contains(&length).into(), format!("an area of {length} bytes wanted")));
        }
        for operation in Operation::ALL {
            for (length, times) in self.short[operation as usize].iter().enumerate() {
                seen.push((*times, format!("a file of {length} bytes for {}", words(operation))));
            }
        }
        for &kind in Kind::ALL {
            seen.push((self.kinds[kind as usize], format!("an input of the kind: {}", kind.words())));
        }
        seen.into_iter().filter(|(times, _)| *times == 0).map(|(_, what)| what).collect()
    }

    /// Adds what inputs must show: situations, each name in every way, and the cells of the grids.
    fn add_situations(&self, seen: &mut Vec<(u64, String)>) {
        for Situations { sort, shown, .. } in SITUATIONS {
            seen.extend(
                shown.iter().map(|(words, _)| (self.showing(sort, words), format!("{sort}: {words}"))),
            );
        }
        for (names, (what, _)) in self.names.iter().zip(EACH_NAME) {
            let each = 0..=MAX_NAME.into();
            seen.extend(each.map(|name| (names.contains(&name).into(), format!("name {name} {what}"))));
        }
        for (grid, counts) in GRIDS.iter().zip(&self.grids) {
            seen.extend(grid.cells().map(|(cell, words)| (counts.get(&cell).copied().unwrap_or(0), words)));
        }
    }

    /// Adds what must be seen of the rules.
    fn add_rules(&self, seen: &mut Vec<(u64, String)>) {
        for (number, rule) in self.rules.iter().enumerate().skip(1) {
            let times = rule.closed * INPUTS_FOR_A_RULE / self.inputs.max(1);
            let often = format!("rule {number} in a closed tableau, once in {INPUTS_FOR_A_RULE} inputs");
            seen.push((times, often));
            seen.push((rule.refused[0], format!("a step with rule {number} refused 20")));
            seen.push((rule.refused[1], format!("a step with rule {number} refused 21")));
        }
        for number in [5, 14] {
            let unfresh = self.rules[number].refused[2];
            seen.push((unfresh, format!("a step with rule {number} refused 22")));
        }
    }
}

/// The refusals that documents 01 and 02 list for the operation.
pub fn refusals(operation: Operation) -> impl Iterator<Item = usize> {
    let firsts_and_lasts: &[[usize; 2]] = match operation {
        Operation::Reading => &[[1, 8]],
        Operation::Model => &[[1, 14], [27, 28]],
        Operation::Tableau => &[[1, 9], [15, 26]],
        Operation::Ordering => &[[10, 14], [29, 29]],
        Operation::Ordered => &[[1, 14], [27, 27]],
        Operation::Area => &[],
        Operation::Typing => &[[30, 32]],
        Operation::Typed => &[[9, 14], [27, 28], [30, 32]],
    };
    firsts_and_lasts.iter().flat_map(|&[first, last]| first..=last)
}

pub fn words(operation: Operation) -> &'static str {
    match operation {
        Operation::Reading => "reading a pattern",
        Operation::Model => "judging a model",
        Operation::Tableau => "judging a tableau",
        Operation::Ordering => "putting a model in order",
        Operation::Ordered => "judging a model put in order",
        Operation::Area => "asking for the area of a pattern",
        Operation::Typing => "typing a pattern",
        Operation::Typed => "judging a model of a typed pattern",
    }
}
