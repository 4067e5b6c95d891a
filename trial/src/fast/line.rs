//! A line of a branch in 64 bits.
//!
//! From the lowest byte: the form with its sign and sort; the entry, axis or channel; two zeros; the first
//! (left) name and its path; the second (right) name and its path. What a form doesn't use is zero, so equal
//! lines are equal words, and exchanging two sides is a rotation of the upper half.

#[derive(Clone, Copy, PartialEq, Eq)]
pub struct Line(u64);

pub const HAS: u8 = 1;
pub const IS: u8 = 2;
pub const EDGE: u8 = 3;
/// A comparison of same that holds.
pub const COMPARE: u8 = 4;
/// Added to `COMPARE` for the sort differ.
pub const DIFFERENT: u8 = 8;
/// Added for the signs lacks, is not, and barred; an axis line has no sign.
pub const NEGATIVE: u8 = 16;

impl Line {
    pub const fn has(form: u8, name: u8, entry: u8) -> Line {
        Line(u64::from_le_bytes([form, entry, 0, 0, name, 0, 0, 0]))
    }

    pub const fn is(form: u8, first: u8, second: u8) -> Line {
        Line(u64::from_le_bytes([form, 0, 0, 0, first, 0, second, 0]))
    }

    pub const fn edge(axis: u8, from: u8, to: u8) -> Line {
        Line(u64::from_le_bytes([EDGE, axis, 0, 0, from, 0, to, 0]))
    }

    pub const fn compare(form: u8, channel: u8, left: (u8, u8), right: (u8, u8)) -> Line {
        Line(u64::from_le_bytes([form, channel, 0, 0, left.0, left.1, right.0, right.1]))
    }

    pub const fn unpack(bytes: [u8; 8]) -> Line {
        Line(u64::from_le_bytes(bytes))
    }

    pub const fn pack(self) -> [u8; 8] {
        self.0.to_le_bytes()
    }

    const fn byte(self, place: u32) -> u8 {
        (self.0 >> (8 * place)) as u8
    }

    /// The line with another byte at the place.
    const fn with(self, place: u32, byte: u8) -> Line {
        Line(self.0 & !(0xff << (8 * place)) | (byte as u64) << (8 * place))
    }

    /// The form with its sign and sort.
    pub const fn form(self) -> u8 {
        self.byte(0)
    }

    /// The sign alone: `NEGATIVE` or 0.
    pub const fn sign(self) -> u8 {
        self.form() & NEGATIVE
    }

    /// The entry of a has or lacks line, the channel of a comparison.
    pub const fn subject(self) -> u8 {
        self.byte(1)
    }

    /// The first, left or from name.
    pub const fn first(self) -> u8 {
        self.byte(4)
    }

    /// The second, right or to name.
    pub const fn second(self) -> u8 {
        self.byte(6)
    }

    /// The left path of a comparison.
    pub const fn left_path(self) -> u8 {
        self.byte(5)
    }

    /// Whether this is a comparison with both paths at end.
    pub const fn at_ends(self) -> bool {
        const PATHS: u64 = 0xff00_ff00 << 32;
        self.0 & PATHS == PATHS
    }

    pub const fn with_entry(self, entry: u8) -> Line {
        self.with(1, entry)
    }

    pub const fn with_first(self, name: u8) -> Line {
        self.with(4, name)
    }

    pub const fn with_second(self, name: u8) -> Line {
        self.with(6, name)
    }

    pub const fn with_left_path(self, path: u8) -> Line {
        self.with(5, path)
    }

    /// The line with these bits of its form turned over.
    pub const fn turned(self, bits: u8) -> Line {
        Line(self.0 ^ bits as u64)
    }

    /// The line with its two sides exchanged, or its two names.
    pub const fn exchanged(self) -> Line {
        let (lower, upper) = (self.0 & 0xffff_ffff, (self.0 >> 32) as u32);
        Line(lower | (upper.rotate_left(16) as u64) << 32)
    }
}
