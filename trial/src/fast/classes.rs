//! Numbering equal keys alike: which nodes a comparison can't tell apart.

use std::iter::zip;

/// At most 64 items in classes of equal keys.
pub struct Classes {
    class: [u8; 64],
    items: usize,
    /// The number of classes.
    pub count: usize,
}

/// Twice as many slots as there can be classes.
const SLOTS: usize = 128;

impl Classes {
    /// Classes numbered by first appearance.
    pub fn new(keys: impl Iterator<Item = u64>) -> Classes {
        let mut classes = Classes { class: [0; 64], items: 0, count: 0 };
        let mut numbering = Numbering { slots: [0; SLOTS], keys: [0; 64], count: 0 };
        for (class, key) in classes.class.iter_mut().zip(keys) {
            *class = numbering.number(key);
            classes.items += 1;
        }
        classes.count = numbering.count as usize;
        classes
    }

    /// The class of each item.
    pub fn classes(&self) -> &[u8] {
        &self.class[..self.items]
    }

    /// The classes of another numbering of the same items, as classes of these classes; `coarse` must put
    /// together what this numbering does.
    pub fn grouped(&self, coarse: &Classes) -> Classes {
        let mut grouped = Classes { class: [0; 64], items: self.count, count: coarse.count };
        for (&fine, &class) in zip(self.classes(), coarse.classes()) {
            grouped.class[fine as usize % 64] = class;
        }
        grouped
    }
}

/// The keys met so far, hashed: a slot has a key's number plus one.
struct Numbering {
    slots: [u8; SLOTS],
    keys: [u64; 64],
    count: u8,
}

impl Numbering {
    /// The number of a key, a new one if it wasn't met before.
    fn number(&mut self, key: u64) -> u8 {
        let mut slot = (key.wrapping_mul(0x9e37_79b9_7f4a_7c15) >> 57) as usize;
        loop {
            match self.slots[slot % SLOTS] {
                0 => break,
                taken if self.keys[(taken - 1) as usize % 64] == key => return taken - 1,
                _ => slot += 1,
            }
        }
        let number = self.count;
        self.keys[number as usize % 64] = key;
        self.count += 1;
        self.slots[slot % SLOTS] = self.count;
        number
    }
}
