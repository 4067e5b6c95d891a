//! Entries that share slots. The proved reader gives each entry a slot and compares it with the earlier ones
//! only where one of them has the same: most patterns share few slots, these share many.

use oracle::pattern::{Entry, MAX_NAME, Pattern};
use std::collections::BTreeSet;
use std::iter::once;

const SLOTS: u64 = 2048;

/// The slot of an entry, as `slot_of` of `crates/repeats` has it.
pub fn slot(entry: [u8; 4]) -> u64 {
    u64::from(u32::from_le_bytes(entry)) * 2_654_435_761 / 2_097_152 % SLOTS
}

/// A pattern of so many entries in few slots: jumps, and a property as the root. 32 slots are enough for 255
/// entries: of the 128 jumps that go on with one path, two or so are in these slots.
pub fn of_few_slots(few: usize, count: usize) -> Pattern {
    let mut taken = BTreeSet::new();
    let mut entries = Vec::new();
    for rest in once(None).chain((0..).map(Some)) {
        for entry in (0..=MAX_NAME).map(|name| Entry::Jump(name, rest)) {
            if entries.len() + 1 == count {
                entries.push(Entry::Property(0));
                return Pattern { entries };
            }
            let slot = slot(entry.to_bytes());
            if taken.len() < few || taken.contains(&slot) {
                taken.insert(slot);
                entries.push(entry);
            }
        }
    }
    unreachable!("there is a path for every number")
}

#[cfg(test)]
mod tests {
    use super::*;
    use oracle::pattern::parse;

    #[test]
    fn slots_are_those_of_the_proved_reader() {
        let reader = include_str!("../../../crates/repeats/src/lib.rt");
        assert!(reader.contains("const SLOTS: usize = 2048;"));
        assert!(reader.contains("((w as u64) * 2654435761 / 2097152 % (SLOTS as u64)) as usize"));
    }

    #[test]
    fn patterns_of_few_slots_are_read() {
        for count in 1..=255 {
            for few in [32, 64] {
                let pattern = of_few_slots(few, count);
                let slots: BTreeSet<u64> =
                    pattern.entries[..count - 1].iter().map(|entry| slot(entry.to_bytes())).collect();
                assert!(slots.len() <= few);
                assert_eq!(parse(&pattern.to_bytes()).expect("it is read"), pattern);
            }
        }
    }
}
