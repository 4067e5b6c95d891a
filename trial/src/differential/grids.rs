//! What a run must see in every combination of two things: of the numbers in a text their place and size, of its first
//! wrong byte what may stand there and what does.

use super::limits::Judged;
use crate::generate::input::Operation;
use oracle::finding::Finding;
use oracle::typed::{Fault, parse};

/// A row and a column.
pub type Cell = (usize, usize);

/// A table of combinations, but for those that can't occur, and which of them an input shows.
pub struct Grid {
    pub heading: &'static str,
    pub rows: &'static [&'static str],
    pub columns: &'static [&'static str],
    never: &'static [Cell],
    pub shown: fn(&Judged) -> Vec<Cell>,
}

pub const GRIDS: [Grid; 2] = [
    Grid {
        heading: "numbers in texts, by what stands before them",
        rows: &["property p", "name n", "axis <", "channel =", "channel #", "axis /", "name @"],
        columns: &[
            "at the limit",
            "one above",
            "256 above one in range",
            "2^16 above",
            "2^32 above",
            "2^64 above",
            "100 digits and more",
        ],
        never: &[],
        shown: numbers,
    },
    Grid {
        heading: "first wrong byte of a text, by what may stand there",
        rows: &[
            "a node",
            "& or |",
            ")",
            ">",
            "a row up to = or #",
            "a row up to ]",
            "a row up to |",
            "a row up to }",
            "a digit",
            "nothing",
        ],
        columns: &["the end", "a digit", "another byte of the grammar", "^", "newline", "any other"],
        never: &[(8, 1), (9, 0)],
        shown: |it| wrong_byte(it).into_iter().collect(),
    },
];

/// What stands before a number, in the order of the rows, and the largest number there.
const BEFORE: [(u8, u128); 7] =
    [(b'p', 31), (b'n', 127), (b'<', 7), (b'=', 3), (b'#', 3), (b'/', 7), (b'@', 127)];

/// What the oracle's reader asks for, in the order of the rows.
const WANTED: [&[u8]; 10] =
    [b"pn!(<[", b"&|", b")", b">", b"/@?{=#", b"/@?{]", b"/@?{|", b"/@?{}", b"0123456789", b""];

impl Grid {
    /// The combinations that can occur, with their words.
    pub fn cells(&self) -> impl Iterator<Item = (Cell, String)> {
        let cells =
            (0..self.rows.len()).flat_map(|row| (0..self.columns.len()).map(move |column| (row, column)));
        cells
            .filter(|cell| !self.never.contains(cell))
            .map(|cell| (cell, format!("{}: {}, {}", self.heading, self.rows[cell.0], self.columns[cell.1])))
    }
}

/// Of a text that was written, the numbers at their limits; else the number that was refused 31.
fn numbers(it: &Judged) -> Vec<Cell> {
    let text = &it.input.pattern;
    if it.input.operation != Operation::Typing {
        return Vec::new();
    }
    match it.finding {
        Finding::Written { .. } => {
            let places = (1..text.len()).filter(|&place| text[place].is_ascii_digit());
            places.filter_map(|place| number(text, place)).collect()
        }
        _ => it.place(31).and_then(|place| number(text, place)).into_iter().collect(),
    }
}

/// The cell of the number that begins at the place, if it has one.
fn number(text: &[u8], place: usize) -> Option<Cell> {
    let row = BEFORE.iter().position(|(before, _)| text[place - 1] == *before)?;
    let digits = text[place..].iter().take_while(|byte| byte.is_ascii_digit()).count();
    if digits >= 100 {
        return Some((row, 6));
    }
    let value: u128 = str::from_utf8(&text[place..][..digits]).ok()?.parse().ok()?;
    let most = BEFORE[row].1;
    let beyond = [(1 << 8, 2), (1 << 16, 3), (1 << 32, 4), (1 << 64, 5)];
    let column = match value {
        _ if value == most => 0,
        _ if value == most + 1 => 1,
        _ => beyond.into_iter().find(|(power, _)| (*power..=power + most).contains(&value))?.1,
    };
    Some((row, column))
}

/// Where a text stops being one of the grammar, and by what.
fn wrong_byte(it: &Judged) -> Option<Cell> {
    if it.input.operation != Operation::Typing {
        return None;
    }
    let Err(Fault::Stray { place, wanted }) = parse(&it.input.pattern) else { return None };
    let row = WANTED.iter().position(|bytes| *bytes == wanted)?;
    let column = match it.input.pattern.get(place) {
        None => 0,
        Some(b'0'..=b'9') => 1,
        Some(b'^') => 3,
        Some(b'\n') => 4,
        Some(byte) if WANTED.iter().any(|bytes| bytes.contains(byte)) => 2,
        Some(_) => 5,
    };
    Some((row, column))
}
