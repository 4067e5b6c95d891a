//! What the root's meaning needs: the entries that it reaches, and their axes and channels.

use super::pattern::{AFTER, DIFFER, Entry, SAME, STEP, is_path, references};

pub struct Reach {
    /// By entry number; the last place stands for end of path.
    needed: [bool; 256],
    /// Reached path entries, and the set of axes and channels of reached entries.
    pub paths: usize,
    pub axes: u8,
    pub channels: u8,
}

impl Reach {
    /// Goes down from the root: a reference is to an earlier entry.
    pub fn from_root(entries: &[Entry]) -> Reach {
        let mut reach = Reach { needed: [false; 256], paths: 0, axes: 0, channels: 0 };
        reach.needed[(entries.len() - 1) & 255] = true;
        for (number, &entry) in entries.iter().enumerate().rev() {
            if reach.needs(number) {
                reach.add(entry);
            }
        }
        reach
    }

    pub fn needs(&self, number: usize) -> bool {
        self.needed[number & 255]
    }

    fn add(&mut self, [kind, x, y, z]: Entry) {
        let [in_x, in_y, in_z] = references(kind);
        self.needed[x as usize] |= in_x;
        self.needed[y as usize] |= in_y;
        self.needed[z as usize] |= in_z;
        self.paths += is_path(kind) as usize;
        self.axes |= u8::from(kind == AFTER || kind == STEP) << (x & 7);
        self.channels |= u8::from(kind == SAME || kind == DIFFER) << (x & 7);
    }
}
