//! Completing items: each becomes an entry behind its parts, and each different entry stands once.

use super::read::{COMPLETE, END, Item, REST_OF};
use crate::fast::pattern::{self, AFTER, DIFFER, Entry, FORK, JUMP, NAME, NOT, PROPERTY, SAME, STEP};

const MOST: usize = 255;

/// Twice as many slots as a file can have entries.
const SLOTS: usize = 512;

/// Entries in order, hashed by their four bytes: a slot has an entry's number plus one.
pub struct Entries {
    entries: [Entry; MOST],
    count: usize,
    slots: [u8; SLOTS],
}

/// An item that is being completed, and which of its parts is under way.
struct Begun {
    item: u16,
    part: usize,
}

/// The entries of the root, which is the first item; nothing if there are more than a file can have.
pub fn entries(items: &mut [Item]) -> Option<Entries> {
    let mut entries = Entries { entries: [[0; 4]; MOST], count: 0, slots: [0; SLOTS] };
    let mut begun = Vec::with_capacity(items.len());
    let mut reference = 0;
    loop {
        let mut number = first_number(items, reference, &mut begun, &mut entries)?;
        reference = loop {
            let Some(Begun { item, part }) = begun.last_mut() else { return Some(entries) };
            let item = &mut items[*item as usize];
            item.parts[*part] = number.into();
            *part += 1;
            if *part < parts(item.kind) {
                break item.parts[*part];
            }
            number = entries.number_of(entry(item))?;
            (item.kind, item.value) = (COMPLETE, number);
            begun.pop();
        };
    }
}

/// Begins the item that is referred to, its first part and so on, as far as one whose number is known or found at once,
/// which it gives.
fn first_number(
    items: &mut [Item],
    mut reference: u16,
    begun: &mut Vec<Begun>,
    entries: &mut Entries,
) -> Option<u8> {
    loop {
        if reference & REST_OF != 0 {
            reference = items[usize::from(reference ^ REST_OF)].parts[2];
        } else if reference == END {
            return Some(pattern::END);
        } else {
            let item = &items[reference as usize];
            match item.kind {
                COMPLETE => return Some(item.value),
                PROPERTY | NAME => return entries.number_of([item.kind, item.value, 0, 0]),
                FORK => know_rest(items, reference),
                _ => {}
            }
            begun.push(Begun { item: reference, part: 0 });
            reference = items[reference as usize].parts[0];
        }
    }
}

/// Has a brace know what it goes on by, if that is what the brace around it goes on by, which knows it.
fn know_rest(items: &mut [Item], fork: u16) {
    let rest = items[fork as usize].parts[2];
    if rest & REST_OF != 0 {
        items[fork as usize].parts[2] = items[usize::from(rest ^ REST_OF)].parts[2];
    }
}

/// How many parts an item has, which isn't a property or a name.
fn parts(kind: u8) -> usize {
    if matches!(kind, NOT | AFTER | STEP | JUMP) { 1 } else { 2 }
}

/// The entry of an item whose parts are numbers of entries.
fn entry(item: &Item) -> Entry {
    let [one, other, _] = item.parts.map(|number| number as u8);
    match item.kind {
        NOT => [NOT, one, 0, 0],
        AFTER | STEP | JUMP => [item.kind, item.value, one, 0],
        SAME | DIFFER => [item.kind, item.value, one, other],
        _ => [item.kind, one, other, 0],
    }
}

impl Entries {
    /// The number of an entry, which is added if it is a new one; nothing if there is no room for it.
    fn number_of(&mut self, entry: Entry) -> Option<u8> {
        let mut slot = (u32::from_le_bytes(entry).wrapping_mul(0x9e37_79b1) >> 23) as usize;
        loop {
            match self.slots[slot % SLOTS] {
                0 => break,
                taken if self.entries[taken as usize - 1] == entry => return Some(taken - 1),
                _ => slot += 1,
            }
        }
        *self.entries.get_mut(self.count)? = entry;
        self.count += 1;
        self.slots[slot % SLOTS] = self.count as u8;
        Some(self.count as u8 - 1)
    }

    /// The bytes of the entries.
    pub fn bytes(&self) -> &[u8] {
        self.entries[..self.count].as_flattened()
    }
}
