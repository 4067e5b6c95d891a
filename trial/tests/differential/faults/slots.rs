//! A reader that is right but for the earlier entries that it compares an entry with.

use oracle::finding::{Finding, Refusal};
use oracle::pattern;
use trial::differential::implementation::{Lent, run_oracle};
use trial::generate::input::Operation;
use trial::generate::slots::slot;

/// Whether it takes an entry for a repeat, by the earlier entries of its slot, with the words for what it
/// compares it with.
pub type Comparing = (&'static str, fn(&[[u8; 4]], [u8; 4]) -> bool);

pub const COMPARINGS: [Comparing; 4] = [
    ("none", |_, _| false),
    ("the slots alone", |earlier, _| !earlier.is_empty()),
    ("the first of its slot", |earlier, entry| earlier.first() == Some(&entry)),
    ("the last of its slot", |earlier, entry| earlier.last() == Some(&entry)),
];

/// The faulty reader as an implementation: what comes behind a pattern that it reads is left to the oracle.
pub fn compared(repeats: fn(&[[u8; 4]], [u8; 4]) -> bool, operation: Operation, lent: Lent) -> Finding {
    let right = pattern::read(lent.pattern);
    let found = read(repeats, lent.pattern, right);
    let shows = operation == Operation::Reading || matches!(found, Finding::Refused(_));
    if found != right && shows { found } else { run_oracle(operation, lent) }
}

/// Its finding of a pattern of which this is the right one.
fn read(repeats: fn(&[[u8; 4]], [u8; 4]) -> bool, file: &[u8], right: Finding) -> Finding {
    let entries = file.get(6..).unwrap_or_default().as_chunks().0;
    let (reached, repeated) = match right {
        Finding::Refused(Refusal { number: 7, place }) => (place as usize + 1, true),
        Finding::Refused(Refusal { number: 4..=6, place }) => (place as usize, false),
        Finding::Refused(Refusal { number: ..=3, .. }) => (0, false),
        _ => (entries.len(), false),
    };
    for (place, &entry) in entries[..reached].iter().enumerate() {
        let of_slot = |earlier: &&[u8; 4]| slot(**earlier) == slot(entry);
        let earlier: Vec<[u8; 4]> = entries[..place].iter().filter(of_slot).copied().collect();
        if repeats(&earlier, entry) {
            return Finding::Refused(Refusal { number: 7, place: place as u16 });
        }
    }
    if repeated { Finding::Read { entries: entries.len() as u16 } } else { right }
}
