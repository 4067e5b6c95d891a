//! Texts outside the grammar, made of texts that are in it.

use super::small;
use oracle::random::Random;
use oracle::typed::{Fault, MAX_TEXT, parse};
use std::collections::BTreeMap;

/// A text in which everything stands that can.
const EVERYTHING: &[u8] = b"(!p10&[{?(n2|<1>p0)|@3}/4#0/1{|}])";

/// The bytes that occur in texts of the grammar; of the digits two.
const ALPHABET: &[u8] = b"pn!(&|)<>[=#]/@?{}01";

/// Bytes that occur in no text of the grammar, beside a sign of a later request.
const FOREIGN: &[u8] = b"\n \r\t\0Pa-~+\x80\xff";
const LATER: u8 = b'^';

/// Cuts a text short, or changes, inserts, removes or exchanges bytes of it, once or up to three times.
pub fn spoil(random: &mut Random, text: &mut Vec<u8>) {
    let times = if random.once_in(4) { random.between(2, 3) } else { 1 };
    for _ in 0..times {
        let (one, other) = (random.below(text.len() + 1), random.below(text.len() + 1));
        match random.below(8) {
            0 => text.truncate(one),
            1 => text.insert(one, stray(random)),
            2 => text.push(stray(random)),
            3 if one < text.len() => text[one] = stray(random),
            4 if one < text.len() => {
                text.remove(one);
            }
            5 if one.max(other) < text.len() => text.swap(one, other),
            6 if text.len() <= MAX_TEXT => {
                let copied = text[one.min(other)..one.max(other)].to_vec();
                text.splice(one..one, copied);
            }
            _ => text.extend(random.pick(&[&b"\n"[..], b" ", b"\r\n", b"\0", b"&p0", b"/0"])),
        }
    }
}

fn stray(random: &mut Random) -> u8 {
    match random.below(8) {
        0 => random.byte(),
        1 | 2 => foreign(random),
        _ => random.pick(ALPHABET),
    }
}

fn foreign(random: &mut Random) -> u8 {
    if random.once_in(3) { LATER } else { random.pick(FOREIGN) }
}

/// A text that is right up to a place, where it ends or another byte stands: places are drawn by what may stand there, so
/// that those at which little may stand occur as often as the others.
pub fn misplace(random: &mut Random) -> Vec<u8> {
    let mut text = if random.once_in(2) { small(random) } else { EVERYTHING.to_vec() };
    let mut places: BTreeMap<&[u8], Vec<usize>> = BTreeMap::new();
    for place in 0..=text.len() {
        match parse(&text[..place]) {
            Err(Fault::Stray { wanted, .. }) => places.entry(wanted).or_default().push(place),
            _ => places.entry(b"").or_default().push(place),
        }
    }
    let group = random.below(places.len());
    let place = random.pick(places.values().nth(group).expect("there are more"));
    match random.below(9) {
        0 | 1 => text.truncate(place),
        2 => {
            text.truncate(place);
            text.push(stray(random));
        }
        3 if place < text.len() => text[place] = random.pick(b"0123456789"),
        4 => text.insert(place, foreign(random)),
        5 if place < text.len() => text[place] = b'\n',
        6 => text.insert(place, random.pick(b"&|")),
        _ => text.insert(place, stray(random)),
    }
    text
}
