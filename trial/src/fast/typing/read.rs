//! Reading a text into items in one pass: refusals 30 and 31.

use crate::fast::pattern::{AFTER, BOTH, DIFFER, EITHER, FORK, JUMP, NAME, NOT, PROPERTY, SAME, STEP, TEST};
use oracle::finding::Refusal;

/// What stands for an entry in the text, in the order of the text. A bracket whose middle hasn't been read has a kind
/// that no entry has; so has an item that is complete, whose value is the number of its entry then.
pub struct Item {
    pub kind: u8,
    pub value: u8,
    /// References to items: nodes and paths in the order of the entry's fields, but the third is what a fork goes on
    /// by, and of any other that encloses something the bracket or test around it.
    pub parts: [u16; 3],
}

/// The kinds of `(`, `[` and `{` before their middle.
const PAIR: u8 = 101;
const COMPARISON: u8 = 102;
const BRACE: u8 = 103;
pub const COMPLETE: u8 = 104;

/// A reference to the end of path.
pub const END: u16 = 0x7fff;
/// A reference to what the brace goes on by whose number is in the other bits.
pub const REST_OF: u16 = 0x8000;
/// No bracket and no test.
const NOTHING: u16 = END;

/// The largest property, name, axis and channel.
const PROPERTIES: u16 = 31;
const NAMES: u16 = 127;
const AXES: u16 = 7;
const CHANNELS: u16 = 3;

/// What the next byte belongs to.
enum Next {
    Node,
    Row,
    Nothing,
}

struct Reader<'t> {
    text: &'t [u8],
    at: usize,
    items: Vec<Item>,
    /// The innermost bracket or test that is open.
    open: u16,
    /// The item and the part of it that refers to where the row goes on.
    going_on: (u16, usize),
    /// The first digit of the first number out of range.
    beyond: Option<u16>,
}

/// The items of a text, the root first; or refusals 30 and 31.
pub fn items(text: &[u8]) -> Result<Vec<Item>, Refusal> {
    let items = Vec::with_capacity(text.len());
    let mut reader = Reader { text, at: 0, items, open: NOTHING, going_on: (0, 0), beyond: None };
    let mut next = Next::Node;
    loop {
        let read = match next {
            Next::Node => reader.node(),
            Next::Row => reader.row(),
            Next::Nothing => break,
        };
        next = read.ok_or(Refusal { number: 30, place: reader.at as u16 })?;
    }
    match reader.beyond {
        Some(place) => Err(Refusal { number: 31, place }),
        None => Ok(reader.items),
    }
}

/// Each function gives nothing where the text is at fault, at the byte where the reader is.
impl Reader<'_> {
    /// Reads the beginning of a node, and its end if it ends there.
    #[inline(always)]
    fn node(&mut self) -> Option<Next> {
        match self.text.get(self.at)? {
            b'p' => self.letter(PROPERTY, PROPERTIES),
            b'n' => self.letter(NAME, NAMES),
            b'!' => {
                self.at += 1;
                self.add(NOT, 0);
                Some(Next::Node)
            }
            b'<' => {
                self.at += 1;
                let axis = self.number(AXES)?;
                self.take(b'>')?;
                self.add(AFTER, axis);
                Some(Next::Node)
            }
            b'(' => {
                self.at += 1;
                self.enter(PAIR);
                Some(Next::Node)
            }
            b'[' => {
                self.at += 1;
                self.enter(COMPARISON);
                self.going_on = (self.open, 0);
                Some(Next::Row)
            }
            _ => None,
        }
    }

    /// Reads a property or a name.
    fn letter(&mut self, kind: u8, most: u16) -> Option<Next> {
        self.at += 1;
        let value = self.number(most)?;
        self.add(kind, value);
        self.node_ended()
    }

    /// Closes what ends with a node that has ended.
    fn node_ended(&mut self) -> Option<Next> {
        while self.open != NOTHING {
            let open = self.open;
            let next = self.items.len() as u16;
            let item = &mut self.items[open as usize];
            match item.kind {
                PAIR => {
                    item.kind = match self.text.get(self.at)? {
                        b'&' => BOTH,
                        b'|' => EITHER,
                        _ => return None,
                    };
                    item.parts[1] = next;
                    self.at += 1;
                    return Some(Next::Node);
                }
                TEST => {
                    self.open = item.parts[2];
                    self.going_on = (open, 1);
                    return Some(Next::Row);
                }
                _ => {
                    self.open = item.parts[2];
                    self.take(b')')?;
                }
            }
        }
        (self.at == self.text.len()).then_some(Next::Nothing)
    }

    /// Reads the beginning of a part of a row, or what follows the row.
    #[inline(always)]
    fn row(&mut self) -> Option<Next> {
        match self.text.get(self.at)? {
            b'/' => self.part(STEP, AXES),
            b'@' => self.part(JUMP, NAMES),
            b'?' => {
                self.at += 1;
                self.go_on(self.items.len() as u16);
                self.enter(TEST);
                Some(Next::Node)
            }
            b'{' => {
                self.at += 1;
                self.go_on(self.items.len() as u16);
                self.enter(BRACE);
                self.going_on = (self.open, 0);
                Some(Next::Row)
            }
            _ => self.row_ended(),
        }
    }

    /// Reads a step or a jump.
    fn part(&mut self, kind: u8, most: u16) -> Option<Next> {
        self.at += 1;
        let value = self.number(most)?;
        let number = self.items.len() as u16;
        self.go_on(number);
        self.add(kind, value);
        self.going_on = (number, 0);
        Some(Next::Row)
    }

    /// Reads what follows a row.
    fn row_ended(&mut self) -> Option<Next> {
        let (open, byte) = (self.open, self.text[self.at]);
        let item = &mut self.items[open as usize];
        let (kind, part) = match (item.kind, byte) {
            (COMPARISON, b'=') => (SAME, 1),
            (COMPARISON, b'#') => (DIFFER, 1),
            (BRACE, b'|') => (FORK, 1),
            (FORK, b'}') => (FORK, 2),
            (SAME | DIFFER, b']') => {
                self.open = item.parts[2];
                self.at += 1;
                self.go_on(END);
                return self.node_ended();
            }
            _ => return None,
        };
        item.kind = kind;
        self.at += 1;
        if kind == FORK {
            self.go_on(REST_OF | open);
            if part == 2 {
                self.open = self.items[open as usize].parts[2];
            }
        } else {
            self.go_on(END);
            self.items[open as usize].value = self.number(CHANNELS)?;
        }
        self.going_on = (open, part);
        Some(Next::Row)
    }

    /// Adds an item whose first part, if it is a node, is the item that follows.
    fn add(&mut self, kind: u8, value: u8) {
        let next = self.items.len() as u16 + 1;
        self.items.push(Item { kind, value, parts: [next, 0, self.open] });
    }

    /// Adds a bracket or a test, which is the innermost that is open then.
    fn enter(&mut self, kind: u8) {
        self.add(kind, 0);
        self.open = self.items.len() as u16 - 1;
    }

    /// Has the row go on there.
    fn go_on(&mut self, reference: u16) {
        let (item, part) = self.going_on;
        self.items[item as usize].parts[part] = reference;
    }

    fn take(&mut self, byte: u8) -> Option<()> {
        (*self.text.get(self.at)? == byte).then(|| self.at += 1)
    }

    /// Reads a number; 0 for one out of range, which is noted if it is the first.
    #[inline(always)]
    fn number(&mut self, most: u16) -> Option<u8> {
        let first = self.at;
        let digit =
            |at: usize| self.text.get(at).map(|byte| byte.wrapping_sub(b'0')).filter(|&digit| digit < 10);
        let mut value = u16::from(digit(first)?);
        self.at += 1;
        while value > 0
            && let Some(digit) = digit(self.at)
        {
            value = (10 * value + u16::from(digit)).min(1000);
            self.at += 1;
        }
        if value <= most {
            return Some(value as u8);
        }
        self.beyond.get_or_insert(first as u16);
        Some(0)
    }
}
