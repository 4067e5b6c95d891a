//! Files at document 01's limits and one over.

pub mod model;
pub mod pattern;
pub mod tableau;

use oracle::random::Random;

/// Spoils from one to three bytes of the header of a file: its mark, its version, its counts.
fn spoil_header(random: &mut Random, file: &mut [u8]) {
    for _ in 0..random.between(1, 3) {
        let at = random.below(9);
        if let Some(byte) = file.get_mut(at) {
            *byte = byte.wrapping_add(random.pick(&[1, 2, 32, 255]));
        }
    }
}

/// Makes a file from 0 to 10 bytes long; what it lacks at its end are zeros.
fn cut_short(random: &mut Random, file: &mut Vec<u8>) {
    file.resize(random.between(0, 10), 0);
}

/// Makes a file one byte shorter or longer, now and then, or longer by what a length of one byte or two
/// can't tell from nothing.
fn misjudge_length(random: &mut Random, file: &mut Vec<u8>) {
    match random.below(12) {
        0 => file.truncate(file.len() - 1),
        1 => file.push(0),
        2 => file.resize(file.len() + random.pick(&[256, 65_536, 65_536]), 0),
        _ => {}
    }
}
