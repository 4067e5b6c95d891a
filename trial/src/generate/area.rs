//! The working areas and destinations that are lent: of every relevant length, and filled so that any change is
//! seen.

use oracle::pattern::{self, Entry, Pattern};
use oracle::random::Random;
use oracle::typed::type_pattern;
use oracle::{model, tableau};
use unit::PATTERN_LONGEST;

/// The working area or the destination as it is lent.
#[derive(Clone, Copy, Debug, PartialEq, Eq)]
pub struct Area {
    pub length: usize,
    /// Where in `FILL` its contents begin.
    pub fill: u8,
}

/// The longest area that is lent.
pub const LONGEST_AREA: usize = 14_000;

/// Lengths at which something is wanted by one operation or another, or by a single entry.
const BORDERS: [usize; 11] = [0, 1, 7, 8, 9, 2039, 2040, 2041, 8191, 8192, 8193];

/// What areas are filled with: no byte is zero and neighbours differ, so that a byte that was zeroed,
/// overwritten or moved is seen.
static FILL: [u8; LONGEST_AREA + 256] = fill();

const fn fill() -> [u8; LONGEST_AREA + 256] {
    let mut bytes = [0; LONGEST_AREA + 256];
    let mut position = 0;
    while position < bytes.len() {
        bytes[position] = 1 + (position * 101 % 251) as u8;
        position += 1;
    }
    bytes
}

impl Area {
    pub const NONE: Area = Area { length: 0, fill: 0 };

    /// An area for judging a model of a pattern file; of any length if that is refused.
    pub fn of_model(random: &mut Random, file: &[u8]) -> Area {
        let length = match pattern::parse(file) {
            Ok(pattern) => length_for(random, &pattern),
            Err(_) if random.once_in(2) => random.pick(&BORDERS),
            Err(_) => random.between(0, LONGEST_AREA),
        };
        Area { length, fill: random.byte() }
    }

    /// An area for judging a tableau: mostly long enough, often just so or by a byte; else of any relevant length.
    pub fn of_tableau(random: &mut Random) -> Area {
        let length = match random.below(16) {
            0 => random.pick(&BORDERS),
            1 => random.between(0, LONGEST_AREA),
            2..5 => random.between(tableau::AREA, LONGEST_AREA),
            5..9 => tableau::AREA + 1,
            _ => tableau::AREA,
        };
        Area { length, fill: random.byte() }
    }

    /// A destination for the old file. For a file that is refused, the new one would be as long.
    pub fn destination(random: &mut Random, old: &[u8]) -> Area {
        let old_length = old.len().min(LONGEST_AREA - 1);
        let new_length = model::in_order(old).map_or(old_length, |new| new.len());
        Area::to_write(random, new_length, old_length)
    }

    /// A destination for the pattern file of a text. For a text that is refused, the file would be of any length, now and
    /// then of the longest.
    pub fn of_text(random: &mut Random, text: &[u8]) -> Area {
        let of_refused = if random.once_in(4) { PATTERN_LONGEST } else { random.between(0, PATTERN_LONGEST) };
        let length = type_pattern(text, PATTERN_LONGEST).map_or(of_refused, |file| file.len());
        Area::to_write(random, length, PATTERN_LONGEST)
    }

    /// A destination for a file: mostly as long as it is, often a byte longer or shorter, or between it and a length
    /// that is enough; else of any length.
    fn to_write(random: &mut Random, length: usize, enough: usize) -> Area {
        let length = match random.below(16) {
            0 => random.pick(&[0, 0, 1, 8, 9]),
            1 => random.between(0, LONGEST_AREA),
            2..5 => length.saturating_sub(1),
            5..8 => random.between(length, enough),
            8 => enough,
            9..11 => length + 1,
            11 => random.between(length, LONGEST_AREA),
            _ => length,
        };
        Area { length, fill: random.byte() }
    }

    /// The bytes of the area before the operation.
    pub fn contents(self) -> &'static [u8] {
        &FILL[self.fill as usize..][..self.length]
    }
}

/// The length of an area for judging a model of the pattern: mostly what is wanted, often a byte more, or up to a byte
/// over a set more or less; now and then what would be wanted if paths counted too, if only what the root reaches did,
/// if either didn't, or for any pattern; else any.
fn length_for(random: &mut Random, pattern: &Pattern) -> usize {
    let wanted = model::area(pattern);
    let set = wanted / pattern.node_entries();
    let near = random.between(1, set + 1);
    match random.below(49) {
        0 => random.pick(&BORDERS),
        1 => random.between(0, LONGEST_AREA),
        2..4 => wanted - 1,
        4 => wanted - set,
        5 => wanted.saturating_sub(near),
        6 => set * pattern.entries.len(),
        7 => set * reached(pattern).count(),
        8 => set * reached(pattern).filter(|entry| !entry.is_path()).count(),
        9 => set * but_either(pattern),
        10 => model::AREA,
        11..14 => wanted + near,
        14..16 => random.between(wanted, model::AREA),
        16..21 => random.between(wanted, LONGEST_AREA),
        21..31 => wanted + 1,
        _ => wanted,
    }
}

/// The entries that the root reaches.
fn reached(pattern: &Pattern) -> impl Iterator<Item = &Entry> {
    pattern.entries.iter().zip(pattern.reached()).filter(|(_, reached)| *reached).map(|(entry, _)| entry)
}

/// How many node entries aren't either.
fn but_either(pattern: &Pattern) -> usize {
    pattern.entries.iter().filter(|entry| !entry.is_path() && !matches!(entry, Entry::Either(..))).count()
}
