//! Reading a pattern: refusals 1 to 8 in one pass over the entries.

use super::{body, refused};
use oracle::finding::Refusal;

/// An entry as the file has it: kind, x, y, z.
pub type Entry = [u8; 4];

pub const PROPERTY: u8 = 1;
pub const NAME: u8 = 2;
pub const NOT: u8 = 3;
pub const BOTH: u8 = 4;
pub const AFTER: u8 = 5;
pub const SAME: u8 = 6;
pub const DIFFER: u8 = 7;
pub const STEP: u8 = 8;
pub const JUMP: u8 = 9;
pub const TEST: u8 = 10;
pub const FORK: u8 = 11;
pub const EITHER: u8 = 12;

/// The path reference that means end of path.
pub const END: u8 = 255;

/// A field of an entry: the bits that its range leaves no use for (every range ends at a power of two), and
/// the sort of entry that it refers to.
#[derive(Clone, Copy)]
struct Field {
    forbidden: u8,
    sort: u8,
}

/// Sorts of entries, as bits.
const NODE_SORT: u8 = 1;
const PATH_SORT: u8 = 2;

const UNUSED: Field = Field { forbidden: 0xff, sort: 0 };
const UP_TO_31: Field = Field { forbidden: !31, sort: 0 };
const UP_TO_127: Field = Field { forbidden: !127, sort: 0 };
const UP_TO_7: Field = Field { forbidden: !7, sort: 0 };
const UP_TO_3: Field = Field { forbidden: !3, sort: 0 };
const NODE: Field = Field { forbidden: 0, sort: NODE_SORT };
const PATH: Field = Field { forbidden: 0, sort: PATH_SORT };

/// The three fields of a kind, over the entry as a little-endian word; its own sort stands in the place of the kind.
pub struct Shape {
    forbidden: u32,
    sorts: u32,
}

const fn shape(sort: u8, x: Field, y: Field, z: Field) -> Shape {
    Shape {
        forbidden: u32::from_le_bytes([0, x.forbidden, y.forbidden, z.forbidden]),
        sorts: u32::from_le_bytes([sort, x.sort, y.sort, z.sort]),
    }
}

const fn node(x: Field, y: Field, z: Field) -> Shape {
    shape(NODE_SORT, x, y, z)
}

const fn path(x: Field, y: Field, z: Field) -> Shape {
    shape(PATH_SORT, x, y, z)
}

/// The table of kinds of document 01, from kind 1 on, with document 02's either.
const SHAPES: [Shape; 12] = [
    node(UP_TO_31, UNUSED, UNUSED),
    node(UP_TO_127, UNUSED, UNUSED),
    node(NODE, UNUSED, UNUSED),
    node(NODE, NODE, UNUSED),
    node(UP_TO_7, NODE, UNUSED),
    node(UP_TO_3, PATH, PATH),
    node(UP_TO_3, PATH, PATH),
    path(UP_TO_7, PATH, UNUSED),
    path(UP_TO_127, PATH, UNUSED),
    path(NODE, PATH, UNUSED),
    path(PATH, PATH, UNUSED),
    node(NODE, NODE, UNUSED),
];

/// The entries of a pattern, or refusals 1 to 8.
pub fn parse(bytes: &[u8]) -> Result<&[Entry], Refusal> {
    let (header, rest) = body::<6>(bytes, b"PAT", 1)?;
    let (entries, odd) = rest.as_chunks::<4>();
    if entries.is_empty() || !odd.is_empty() || entries.len() != header[5] as usize {
        return Err(refused(3));
    }
    let mut sorts = [0; 256];
    sorts[END as usize] = PATH_SORT;
    let mut seen = Seen([0; SLOTS]);
    for (number, &entry) in entries.iter().enumerate() {
        sorts[number & 255] = checked(entry, &sorts)
            .and_then(|sort| if seen.insert(entries, number) { Ok(sort) } else { Err(7) })
            .map_err(|refusal| Refusal { number: refusal, place: number as u16 })?;
    }
    let root = entries.len() - 1;
    if sorts[root & 255] == PATH_SORT {
        return Err(Refusal { number: 8, place: root as u16 });
    }
    Ok(entries)
}

/// The sort of an entry, given the sorts of the earlier ones (none for its own number and later ones); or
/// refusal 4, 5 or 6.
fn checked(entry: Entry, sorts: &[u8; 256]) -> Result<u8, u16> {
    let [kind, x, y, z] = entry;
    let shape = SHAPES.get(kind.wrapping_sub(1) as usize).ok_or(4u16)?;
    if u32::from_le_bytes(entry) & shape.forbidden != 0 {
        return Err(5);
    }
    let found = u32::from_le_bytes([0xff, sorts[x as usize], sorts[y as usize], sorts[z as usize]]);
    if shape.sorts & !found != 0 {
        return Err(6);
    }
    Ok(shape.sorts as u8)
}

/// Twice as many slots as a pattern can have entries.
const SLOTS: usize = 512;

/// The entries seen so far, hashed by their four bytes: a slot has an entry's number plus one.
struct Seen([u8; SLOTS]);

impl Seen {
    /// Adds an entry; false if an earlier one is equal.
    fn insert(&mut self, entries: &[Entry], number: usize) -> bool {
        let entry = entries[number];
        let mut slot = (u32::from_le_bytes(entry).wrapping_mul(0x9e37_79b1) >> 23) as usize;
        loop {
            match self.0[slot % SLOTS] {
                0 => break,
                taken if entries[taken as usize - 1] == entry => return false,
                _ => slot += 1,
            }
        }
        self.0[slot % SLOTS] = number as u8 + 1;
        true
    }
}

/// The kinds of paths, as bits.
const PATHS: u32 = {
    let (mut paths, mut kind) = (0, 1);
    while kind <= SHAPES.len() {
        paths |= ((SHAPES[kind - 1].sorts as u8 == PATH_SORT) as u32) << kind;
        kind += 1;
    }
    paths
};

/// Whether entries of a kind are paths.
pub fn is_path(kind: u8) -> bool {
    PATHS >> (kind & 31) & 1 == 1
}

/// Which of x, y, z are references.
pub fn references(kind: u8) -> [bool; 3] {
    let [_, x, y, z] = SHAPES[kind as usize - 1].sorts.to_le_bytes();
    [x != 0, y != 0, z != 0]
}

/// The number of node entries, reached or not.
pub fn node_count(entries: &[Entry]) -> usize {
    entries.iter().filter(|entry| !is_path(entry[0])).count()
}

/// The names used in the pattern, reached or not, as a set of bits.
pub fn used_names(entries: &[Entry]) -> u128 {
    let has_name = |kind| kind == NAME || kind == JUMP;
    entries.iter().filter(|entry| has_name(entry[0])).fold(0, |names, entry| names | 1 << entry[1])
}
