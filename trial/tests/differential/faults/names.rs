//! A judge of models that is right but for the names that a model must list.

use super::edges::parted;
use oracle::finding::{Finding, Refusal};
use oracle::model::{self, Model};
use oracle::pattern::{self, Entry, Pattern};
use trial::differential::implementation::{Lent, run_oracle};
use trial::generate::input::Operation;

/// The place that it gives with refusal 27 if it gives it, with the words for what is wrong.
pub type Mistake = (&'static str, fn(&Pattern, &Model) -> Option<u16>);

pub const MISTAKES: [Mistake; 13] = [
    ("no name need be listed", |_, _| None),
    ("the highest name", |pattern, model| missing(pattern, model).max()),
    ("the name of the first entry", |pattern, model| missing(pattern, model).next()),
    ("the entry instead of the name", |pattern, model| {
        let lowest = missing(pattern, model).min()?;
        pattern.entries.iter().position(|entry| entry.name() == Some(lowest as u8)).map(|entry| entry as u16)
    }),
    ("the number of records instead of the name", |pattern, model| {
        missing(pattern, model).min().map(|_| model.names.len() as u16)
    }),
    ("entries that the root reaches", |pattern, model| {
        let entries = pattern.entries.iter().zip(pattern.reached());
        let reached = entries.filter(|(_, reached)| *reached).map(|(entry, _)| *entry).collect();
        missing(&Pattern { entries: reached }, model).min()
    }),
    ("no jump", |pattern, model| lowest_in(pattern, model, |entry| matches!(entry, Entry::Name(_)))),
    ("jumps alone", |pattern, model| lowest_in(pattern, model, |entry| matches!(entry, Entry::Jump(..)))),
    ("name 0 need not be listed", |pattern, model| missing(pattern, model).filter(|&name| name > 0).min()),
    ("names up to 126", |pattern, model| missing(pattern, model).filter(|&name| name < 127).min()),
    ("a set of 64 bits", |pattern, model| missing(pattern, model).map(|name| name % 64).min()),
    ("a name of node 0 isn't listed", |pattern, model| {
        let names = pattern.names().into_iter().filter(|&name| model.node_of(name) == 0);
        names.map(u16::from).min()
    }),
    ("no other name may be listed", |pattern, model| {
        let others = model.names.iter().map(|record| record.0).filter(|&name| !pattern.uses(name));
        missing(pattern, model).chain(others.map(u16::from)).min()
    }),
];

/// The names that the model doesn't list, entry by entry.
fn missing(pattern: &Pattern, model: &Model) -> impl Iterator<Item = u16> {
    let names = pattern.entries.iter().filter_map(Entry::name);
    names.filter(|&name| !model.lists(name)).map(u16::from)
}

/// The lowest name that such entries have and that the model doesn't list.
fn lowest_in(pattern: &Pattern, model: &Model, is_such: fn(&Entry) -> bool) -> Option<u16> {
    let entries = pattern.entries.iter().copied().filter(is_such).collect();
    missing(&Pattern { entries }, model).min()
}

/// The faulty judge as an implementation: the other refusals are left to the oracle.
pub fn mistaken(place: fn(&Pattern, &Model) -> Option<u16>, operation: Operation, lent: Lent) -> Finding {
    let mut kept = lent.area.to_vec();
    let oracle = Lent { pattern: &mut *lent.pattern, proposal: &mut *lent.proposal, area: &mut kept };
    let finding = run_oracle(operation, oracle);
    let looked_at = matches!(
        finding,
        Finding::Met { .. } | Finding::Unmet | Finding::Refused(Refusal { number: 27, .. })
    );
    if operation != Operation::Model || !looked_at {
        lent.area.copy_from_slice(&kept);
        return finding;
    }
    let pattern = pattern::parse(lent.pattern).expect("it was read");
    let model = model::parse(lent.proposal).expect("its names were looked at");
    if let Some(place) = place(&pattern, &model) {
        return Finding::Refused(Refusal { number: 27, place });
    }
    lent.area[..model::area(&pattern)].fill(0);
    model::finding(&pattern, &model)
}

/// A judge that looks at the names before it gives an edge's refusal of this number.
pub fn names_before_edges<const NUMBER: u16>(operation: Operation, lent: Lent) -> Finding {
    let (pattern, proposal) = (lent.pattern.to_vec(), lent.proposal.to_vec());
    let finding = run_oracle(operation, lent);
    let looked_at = matches!(finding, Finding::Refused(Refusal { number, .. }) if number == NUMBER);
    if operation != Operation::Model || !looked_at {
        return finding;
    }
    match model::judge(&pattern, &parted(&proposal).0, &mut [0; model::AREA]) {
        Finding::Refused(refusal) => Finding::Refused(refusal),
        _ => finding,
    }
}
