//! The inputs that are timed.

pub mod models;
pub mod older;
pub mod patterns;
mod script;
pub mod tableaux;
pub mod texts;
mod typical;

use super::case::Case;
use crate::generate::slots;
use oracle::pattern::Entry;

/// The cases of reading a pattern, and of asking for its area.
pub fn readings() -> Vec<Case> {
    vec![
        Case::reading("typical, 20 entries", &patterns::typical()),
        Case::reading("large, 255 entries", &patterns::mixed(255, patterns::SEED)),
        Case::reading("255 entries of one kind", &patterns::long_after(255)),
        Case::reading("255 entries, 253 of them either", &patterns::shared_nodes(255, Entry::Either)),
        Case::reading("255 entries in 32 slots", &slots::of_few_slots(32, 255)),
        Case::area("area, typical", &patterns::typical()),
        Case::area("area, 255 entries", &patterns::mixed(255, patterns::SEED)),
    ]
}

/// The cases that go deepest into the stack.
pub fn deepest() -> Vec<Case> {
    let readings = readings().into_iter().skip(1);
    let models = models::cases().into_iter().skip(2);
    let written = older::cases().into_iter().chain(texts::cases());
    readings.chain(models).chain(tableaux::deep_cases()).chain(written).collect()
}
