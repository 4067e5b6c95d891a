//! The proved library, safe to call from Rust: any bytes of any length are accepted.
//!
//! ```
//! let pattern = b"PAT\x01\x00\x01\x01\x00\x00\x00"; // one entry: property 0
//! let model = b"DAT\x01\x00\x01\x00\x00\x00\x01\x00\x00\x00\x00\x00\x00\x00\x00\x00\x00\x00"; // one node that has it
//! let mut area = vec![0; unit::model_area(pattern)];
//! let finding = unit::judge_model(pattern, model, &mut area);
//! assert_eq!(finding, unit::Finding::Met { lowest: 0, number: 1 });
//! ```
//!
//! Stack that was enough on the deepest inputs: 2.5 KB for reading and for `model_area`, 60 KB for judging a model,
//! 16 KB for judging a tableau, 4.5 KB for putting a model in order, 22 KB for a typed pattern. 64 KB are enough for
//! all.

use std::fmt;

/// The bytes of working area that are always enough for judging a model; `model_area` says how many are enough for
/// one pattern.
pub const MODEL_AREA: usize = 2040;

/// The bytes of working area that are enough for judging a tableau.
pub const TABLEAU_AREA: usize = 8192;

/// The bytes of the longest model file: a destination of so many is enough for putting any model in order.
pub const MODEL_LONGEST: usize = 13_321;

/// The bytes of the longest text that is read into a pattern file.
pub const TEXT_LONGEST: usize = 1024;

/// The bytes of the longest pattern file: a destination of so many is enough for any typed pattern.
pub const PATTERN_LONGEST: usize = 1026;

/// A finding of any of the operations, or a refusal with its number and place.
#[derive(Clone, Copy, Debug, PartialEq, Eq)]
pub enum Finding {
    /// Reading a pattern: the number of its entries.
    Read { entries: u16 },
    /// Judging a model: the lowest node where the root holds, and the number of such nodes.
    Met { lowest: u16, number: u16 },
    /// Judging a model: the root holds nowhere.
    Unmet,
    /// Judging a tableau: the counts of steps, clashes and forks, and the most lines on a branch.
    Closed { steps: u16, clashes: u16, forks: u16, most: u16 },
    /// Putting a model in order, or typing a pattern: the length of the new file.
    Written { length: u16 },
    /// Refused: the number and the place.
    Refused { number: u16, place: u16 },
}

mod linked {
    unsafe extern "C" {
        pub fn riser_read(pattern: *const u8, pattern_length: usize) -> u64;
        pub fn riser_model_area(pattern: *const u8, pattern_length: usize) -> usize;
        pub fn riser_judge_model(
            pattern: *const u8,
            pattern_length: usize,
            model: *const u8,
            model_length: usize,
            area: *mut u8,
            area_length: usize,
        ) -> u64;
        pub fn riser_judge_tableau(
            pattern: *const u8,
            pattern_length: usize,
            tableau: *const u8,
            tableau_length: usize,
            area: *mut u8,
            area_length: usize,
        ) -> u64;
        pub fn riser_order(
            old: *const u8,
            old_length: usize,
            destination: *mut u8,
            destination_length: usize,
        ) -> u64;
        pub fn riser_type(
            text: *const u8,
            text_length: usize,
            destination: *mut u8,
            destination_length: usize,
        ) -> u64;
    }
}

/// Reads a pattern.
pub fn read(pattern: &[u8]) -> Finding {
    // SAFETY: the slice is readable for its length, which is all that the function wants.
    unpacked(unsafe { linked::riser_read(pattern.as_ptr(), pattern.len()) })
}

/// The bytes of working area that judging a model of a pattern wants: 8 for each entry that is a node, reached by the
/// root or not, so 8 to `MODEL_AREA`; 0 for a pattern that is refused, which any area is enough for.
pub fn model_area(pattern: &[u8]) -> usize {
    // SAFETY: as in `read`.
    unsafe { linked::riser_model_area(pattern.as_ptr(), pattern.len()) }
}

/// Judges a model of a pattern; `model_area` says how many bytes of area it wants, and a shorter one is refused 9. Met
/// and unmet leave as many of its first bytes zero and the others as they were; a refusal leaves all of them. A model
/// must list every name that the pattern uses: refusal 27 gives the lowest that isn't listed as its place. Its edges
/// must rise by from, then axis, then to, each once: refusal 28 gives the first record that doesn't come after the one
/// before it.
pub fn judge_model(pattern: &[u8], model: &[u8], area: &mut [u8]) -> Finding {
    // SAFETY: the slices are readable, and the area writable, for their lengths; the area is borrowed
    // for writing and so overlaps neither of the others.
    unpacked(unsafe {
        linked::riser_judge_model(
            pattern.as_ptr(),
            pattern.len(),
            model.as_ptr(),
            model.len(),
            area.as_mut_ptr(),
            area.len(),
        )
    })
}

/// Judges a tableau for a pattern; `TABLEAU_AREA` bytes of area are enough. If it is closed, the root of the pattern
/// holds at no node of any data model, finite or infinite.
pub fn judge_tableau(pattern: &[u8], tableau: &[u8], area: &mut [u8]) -> Finding {
    // SAFETY: as in `judge_model`.
    unpacked(unsafe {
        linked::riser_judge_tableau(
            pattern.as_ptr(),
            pattern.len(),
            tableau.as_ptr(),
            tableau.len(),
            area.as_mut_ptr(),
            area.len(),
        )
    })
}

/// Puts an older model file in order, one whose edges stand in any order and may be repeated: the new file has the
/// nodes and names as they stand and each edge once, rising by from, then axis, then to. It is in the first bytes of
/// the destination, whose other bytes stay; a refusal, 10 to 14 or 29, leaves all of them. `MODEL_LONGEST` bytes of
/// destination, or as many as the old file has, are enough: refusal 29 says that the new file is longer.
pub fn order(old: &[u8], destination: &mut [u8]) -> Finding {
    // SAFETY: the old file is readable, and the destination writable, for their lengths; the destination is
    // borrowed for writing and so doesn't overlap the old file.
    unpacked(unsafe {
        linked::riser_order(old.as_ptr(), old.len(), destination.as_mut_ptr(), destination.len())
    })
}

/// Reads a typed pattern, such as `(p0&!<1>n2)`, into a pattern file: at every node of every data model, finite or
/// infinite, the file holds exactly where the text does. It is in the first bytes of the destination, whose other
/// bytes stay; a refusal leaves all of them: 30 for a text that has over `TEXT_LONGEST` bytes, with place 0, or is
/// outside the grammar, with the place of the first byte, or of the end, that no text could have there; 31 for the
/// first number out of range, with the place of its first digit; 32 for over 255 different entries, or a destination
/// shorter than the file. `PATTERN_LONGEST` bytes of destination are enough.
pub fn type_pattern(text: &[u8], destination: &mut [u8]) -> Finding {
    // SAFETY: the text is readable, and the destination writable, for their lengths; the destination is
    // borrowed for writing and so doesn't overlap the text.
    unpacked(unsafe {
        linked::riser_type(text.as_ptr(), text.len(), destination.as_mut_ptr(), destination.len())
    })
}

/// A packed answer: its kind in the lowest 4 bits, and above it four numbers of 14 bits, the first lowest.
fn unpacked(answer: u64) -> Finding {
    let part = |k: u32| (answer >> (4 + 14 * k) & 0x3fff) as u16;
    match answer & 15 {
        1 => Finding::Refused { number: part(0), place: part(1) },
        2 => Finding::Read { entries: part(0) },
        3 => Finding::Met { lowest: part(0), number: part(1) },
        4 => Finding::Unmet,
        5 => Finding::Closed { steps: part(0), clashes: part(1), forks: part(2), most: part(3) },
        6 => Finding::Written { length: part(0) },
        kind => unreachable!("the library gives no answer of kind {kind}"),
    }
}

/// The line that the bench program or the typist prints (`read` with the count, which neither prints).
impl fmt::Display for Finding {
    fn fmt(&self, f: &mut fmt::Formatter<'_>) -> fmt::Result {
        match self {
            Finding::Read { entries } => write!(f, "read {entries}"),
            Finding::Met { lowest, number } => write!(f, "met {lowest} {number}"),
            Finding::Unmet => write!(f, "unmet"),
            Finding::Closed { steps, clashes, forks, most } => {
                write!(f, "closed {steps} {clashes} {forks} {most}")
            }
            Finding::Written { length } => write!(f, "written {length}"),
            Finding::Refused { number, place } => write!(f, "refused {number} {place}"),
        }
    }
}
