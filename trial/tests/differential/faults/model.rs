//! A judge of models that is right but for something that it misreads.

use oracle::finding::Finding;
use oracle::model::{self, Model};
use oracle::pattern::{self, Entry, Pattern};
use trial::differential::implementation::{Lent, run_oracle};
use trial::generate::input::Operation;
use trial::generate::models::BUCKETS;

/// What it takes a pattern and a model for, with the words for it.
pub type Misreading = (&'static str, fn(&mut Pattern, &mut Model));

pub const MISREADINGS: [Misreading; 10] = [
    ("edges lead the other way", |_, model| {
        model.edges.iter_mut().for_each(|edge| *edge = (edge.2, edge.1, edge.0));
    }),
    ("an axis is ignored", |pattern, model| {
        model.edges.iter_mut().for_each(|edge| edge.1 = 0);
        change_entries(pattern, |entry| match entry {
            Entry::Step(_, alpha) => Entry::Step(0, alpha),
            Entry::After(_, phi) => Entry::After(0, phi),
            entry => entry,
        });
    }),
    ("a channel is ignored", |pattern, _| {
        change_entries(pattern, |entry| match entry {
            Entry::Compare(comparison, _, alpha, beta) => Entry::Compare(comparison, 0, alpha, beta),
            entry => entry,
        });
    }),
    ("names are ignored", |_, model| model.names.clear()),
    ("only the first name is listed", |_, model| model.names.truncate(1)),
    ("a fork goes left only", |pattern, _| {
        change_entries(pattern, |entry| match entry {
            Entry::Fork(alpha, _) => Entry::Fork(alpha, alpha),
            entry => entry,
        });
    }),
    ("a test lets everything pass", |pattern, _| {
        change_entries(pattern, |entry| match entry {
            Entry::Test(_, alpha) => Entry::Fork(alpha, alpha),
            entry => entry,
        });
    }),
    ("a value has one byte", |_, model| {
        model.nodes.iter_mut().flat_map(|node| &mut node.values).for_each(|value| *value &= 255);
    }),
    ("values of one bucket are equal", |_, model| {
        model.nodes.iter_mut().flat_map(|node| &mut node.values).for_each(|value| *value %= BUCKETS);
    }),
    ("a property set has two bytes", |_, model| {
        model.nodes.iter_mut().for_each(|node| node.properties &= 0xffff);
    }),
];

fn change_entries(pattern: &mut Pattern, change: fn(Entry) -> Entry) {
    pattern.entries.iter_mut().for_each(|entry| *entry = change(*entry));
}

/// The faulty judge as an implementation: refusals and the area are left to the oracle.
pub fn misread(change: fn(&mut Pattern, &mut Model), operation: Operation, lent: Lent) -> Finding {
    let (pattern, proposal) = (lent.pattern.to_vec(), lent.proposal.to_vec());
    match run_oracle(operation, lent) {
        Finding::Met { .. } | Finding::Unmet if operation == Operation::Model => {
            let mut pattern = pattern::parse(&pattern).expect("it was read");
            let mut model = model::parse(&proposal).expect("it was judged");
            change(&mut pattern, &mut model);
            model::finding(&pattern, &model)
        }
        finding => finding,
    }
}
