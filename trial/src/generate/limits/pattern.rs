//! Patterns at the limits: short files, fields at the ends of their ranges, 255 entries.

use super::{cut_short, misjudge_length, spoil_header};
use crate::generate::mutate::BORDERS;
use crate::generate::{patterns, slots};
use oracle::random::Random;

/// Writes a pattern file at a limit or one over.
pub fn pattern(random: &mut Random, file: &mut Vec<u8>) {
    match random.below(32) {
        0..4 => {
            entries(file, &[[1, 0, 0, 0]]);
            cut_short(random, file);
        }
        4..8 => {
            entries(file, &[[1, 0, 0, 0]]);
            spoil_header(random, file);
        }
        8..11 => no_entry(random, file),
        11 => longest(random, file),
        12..16 => twins(random, file),
        16..20 => around_a_sort(random, file),
        20..22 => in_few_slots(random, file),
        _ => border_fields(random, file),
    }
}

fn entries(file: &mut Vec<u8>, entries: &[[u8; 4]]) {
    file.clear();
    file.extend(b"PAT\x01\x00");
    file.push(entries.len() as u8);
    file.extend(entries.iter().flatten());
}

/// n is 0, also with the length that 256 entries would have.
fn no_entry(random: &mut Random, file: &mut Vec<u8>) {
    entries(file, &[]);
    if random.once_in(2) {
        file.extend((0..256).flat_map(|entry| [3, entry as u8, 0, 0]));
    }
    misjudge_length(random, file);
}

/// 255 entries, sometimes with a fault in the last: a reference to itself or the end as a node, a path as
/// the root, a byte too few or too many.
fn longest(random: &mut Random, file: &mut Vec<u8>) {
    *file = patterns::of_size(random, 255).to_bytes();
    let last = file.len() - 4;
    match random.below(5) {
        0 => file[last..].copy_from_slice(&[3, random.pick(&[253, 254, 255]), 0, 0]),
        1 => file[last..].copy_from_slice(&[11, 255, 255, 0]),
        2 => misjudge_length(random, file),
        _ => {}
    }
}

/// A pattern of any size with an entry that repeats an earlier one, near or far, or almost does.
fn twins(random: &mut Random, file: &mut Vec<u8>) {
    let size = random.between(2, 255);
    *file = patterns::of_size(random, size).to_bytes();
    let twin = repeat(random, size, file);
    if random.once_in(3) {
        file[twin + random.below(4)] ^= 1 << random.below(8);
    }
}

/// Makes an entry of so many equal to an earlier one, and gives where it stands in the file.
fn repeat(random: &mut Random, size: usize, file: &mut [u8]) -> usize {
    let twin = random.between(1, size - 1);
    let earlier = 6 + 4 * random.below(twin);
    let twin = 6 + 4 * twin;
    file.copy_within(earlier..earlier + 4, twin);
    twin
}

/// A pattern whose entries share slots, mostly with an entry that repeats an earlier one.
fn in_few_slots(random: &mut Random, file: &mut Vec<u8>) {
    let size = random.between(40, 255);
    *file = slots::of_few_slots(random.between(32, 64), size).to_bytes();
    if !random.once_in(4) {
        repeat(random, size, file);
    }
}

/// A node, a path, and an entry of any kind whose fields stand at the ends of ranges; then a node as
/// the root, or not.
fn border_fields(random: &mut Random, file: &mut Vec<u8>) {
    let kind = if random.once_in(12) { random.pick(&[0, 13, 14, 255]) } else { random.between(1, 12) as u8 };
    let x = if random.once_in(2) { last_or_over(random, kind) } else { random.pick(&BORDERS) };
    let entry = [kind, x, reference(random), reference(random)];
    let fields = [[1, 0, 0, 0], [8, 0, 255, 0], zero_some(random, entry), [1, 30, 0, 0]];
    entries(file, &fields[..random.between(3, 4)]);
}

/// The last value of the field x of the kind, or the one after: "Names run from 0 to 127, properties 0 to
/// 31, axes 0 to 7, channels 0 to 3."
fn last_or_over(random: &mut Random, kind: u8) -> u8 {
    let last = match kind {
        1 => 31,
        2 | 9 => 127,
        5 | 8 => 7,
        6 | 7 => 3,
        _ => 0,
    };
    random.between(last, last + 1) as u8
}

/// A reference that is often good: to the node, to the path, to the end, or to anything.
fn reference(random: &mut Random) -> u8 {
    if random.once_in(4) { random.pick(&BORDERS) } else { random.pick(&[0, 1, 255]) }
}

/// Sets fields that the kind doesn't use to zero, mostly, so that the others are looked at.
fn zero_some(random: &mut Random, [kind, x, y, z]: [u8; 4]) -> [u8; 4] {
    if random.once_in(8) {
        return [kind, x, y, z];
    }
    match kind {
        1..=3 => [kind, x, 0, 0],
        6 | 7 => [kind, x, y, z],
        _ => [kind, x, y, 0],
    }
}

/// An entry that refers to itself, to the entry before or after, to the end, or to one of the other
/// sort, in each field that refers.
fn around_a_sort(random: &mut Random, file: &mut Vec<u8>) {
    let mut reference = || random.pick(&[0, 0, 1, 2, 3, 4, 5, 255]);
    let (one, other) = (reference(), reference());
    let entry = match random.below(12) {
        0 => [3, one, 0, 0],
        1 => [4, one, other, 0],
        2 => [5, 0, one, 0],
        3 => [6, 0, one, other],
        4 => [8, 7, one, 0],
        5 => [9, 127, one, 0],
        6 => [10, one, other, 0],
        7..11 => [12, one, other, 0],
        _ => [11, one, other, 0],
    };
    let either = [12, 0, 0, 0];
    entries(file, &[[1, 0, 0, 0], [8, 0, 255, 0], either, entry, [8, 1, 255, 0], [1, 1, 0, 0]]);
}
