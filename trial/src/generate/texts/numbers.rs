//! Texts with a number at its limit, beyond it, or so far beyond that few bits can't tell.

use super::small;
use oracle::pattern::{MAX_AXIS, MAX_CHANNEL, MAX_NAME, MAX_PROPERTY};
use oracle::random::Random;

/// The seven places of a number: what stands before it and behind it, where any node may stand instead, and the
/// largest that may stand there.
const PLACES: [(&str, &str, u8); 7] = [
    ("p", "", MAX_PROPERTY),
    ("n", "", MAX_NAME),
    ("<", ">p0", MAX_AXIS),
    ("[=", "]", MAX_CHANNEL),
    ("[/1#", "]", MAX_CHANNEL),
    ("[/", "/0=0]", MAX_AXIS),
    ("[=1@", "]", MAX_NAME),
];

/// A text with such a number at one of the seven places, now and then with two.
pub fn with_number(random: &mut Random) -> Vec<u8> {
    let one = node(random);
    let other = if random.once_in(4) { node(random) } else { small(random) };
    match random.below(8) {
        0..3 => one,
        3 => [b"(", &one[..], b"&", &other, b")"].concat(),
        4 => [b"(", &other[..], b"|", &one, b")"].concat(),
        5 => [b"[?", &one[..], b"/1=0?", &other, b"]"].concat(),
        6 => [b"[{|?", &one[..], b"}@1#1{?", &other, b"|}]"].concat(),
        _ => {
            let nots = if random.once_in(4) { random.between(250, 260) } else { random.between(1, 9) };
            [&vec![b'!'; nots][..], &one].concat()
        }
    }
}

/// A node with such a number.
fn node(random: &mut Random) -> Vec<u8> {
    let (before, behind, most) = random.pick(&PLACES);
    format!("{before}{}{behind}", number(random, most)).into_bytes()
}

/// A number at the limit or one above it, one that is in range but for bits that a byte, or two, four or eight, haven't,
/// one of hundreds of digits, one with leading zeros, or any.
fn number(random: &mut Random, most: u8) -> String {
    let in_range = random.between(0, most.into()) as u128;
    match random.below(10) {
        0 => most.to_string(),
        1 => (most + 1).to_string(),
        2 => ((1 << 8) + in_range).to_string(),
        3 => ((1 << 16) + in_range).to_string(),
        4 => ((1 << 32) + in_range).to_string(),
        5 => ((1 << 64) + in_range).to_string(),
        6 => {
            let digits = random.between(100, 400);
            random.pick(&["1", "9", "25"]).repeat(digits) + &in_range.to_string()
        }
        7 => "0".repeat(random.between(1, 2)) + &in_range.to_string(),
        8 => random.between(most.into(), 300).to_string(),
        _ => in_range.to_string(),
    }
}
