//! Reading a text: refusals 30 and 31, or its tree.
//!
//! What may follow is settled by the next byte alone, so the first byte that isn't one of those asked for is the first
//! that no text of the grammar has there: whatever was read so far can be gone on with.

use super::{MAX_TEXT, NodeText, PartText, RowText};
use crate::finding::Refusal;
use crate::pattern::{Comparison, MAX_AXIS, MAX_CHANNEL, MAX_NAME, MAX_PROPERTY};

const DIGITS: &[u8] = b"0123456789";

/// Why a text isn't read.
#[derive(Clone, Copy, Debug, PartialEq, Eq)]
pub enum Fault {
    /// It is over 1,024 bytes.
    Long,
    /// What stands at the place is none of the bytes that were asked for; if there are none, the end was.
    Stray { place: usize, wanted: &'static [u8] },
    /// The number whose first digit stands at the place is out of range.
    Range { place: usize },
}

impl From<Fault> for Refusal {
    fn from(fault: Fault) -> Refusal {
        match fault {
            Fault::Long => Refusal { number: 30, place: 0 },
            Fault::Stray { place, .. } => Refusal { number: 30, place: place as u16 },
            Fault::Range { place } => Refusal { number: 31, place: place as u16 },
        }
    }
}

/// The text's tree: "the whole is a node text". A fault of the grammar comes before every number out of range.
pub fn parse(text: &[u8]) -> Result<NodeText, Fault> {
    if text.len() > MAX_TEXT {
        return Err(Fault::Long);
    }
    let mut reader = Reader { text, position: 0, open: Vec::new(), out_of_range: None };
    let node = reader.whole()?;
    if reader.position < text.len() {
        return Err(reader.stray(b""));
    }
    match reader.out_of_range {
        Some(place) => Err(Fault::Range { place }),
        None => Ok(node),
    }
}

/// What has been begun and isn't whole yet. A list of these stands in for functions that call each other, as texts
/// can be nested a thousand deep.
enum Open {
    Not,
    After(u8),
    /// `(`, before its first node.
    Pair,
    /// `(`, its first node and the sign behind it.
    HalfPair(NodeText, u8),
    /// A row with the parts that it has, and what it is a row of, before the node of a test or inside a brace.
    Row(RowText, RowOf),
}

/// What a row is a part of, with what stands before it there.
enum RowOf {
    CompareLeft,
    CompareRight(Comparison, u8, RowText),
    BraceLeft,
    BraceRight(RowText),
}

/// What comes next.
enum Next {
    /// A node text begins.
    Node,
    /// A row goes on behind these parts, or ends.
    Row(RowText, RowOf),
    /// A node text is whole.
    Whole(NodeText),
}

impl Next {
    /// A row begins.
    fn row(of: RowOf) -> Next {
        Next::Row(RowText::new(), of)
    }

    /// A row has one part more.
    fn longer(mut parts: RowText, part: PartText, of: RowOf) -> Next {
        parts.push(part);
        Next::Row(parts, of)
    }
}

impl RowOf {
    /// The bytes that may follow in such a row: those that begin a part, and those that end it.
    fn wanted(&self) -> &'static [u8] {
        match self {
            RowOf::CompareLeft => b"/@?{=#",
            RowOf::CompareRight(..) => b"/@?{]",
            RowOf::BraceLeft => b"/@?{|",
            RowOf::BraceRight(..) => b"/@?{}",
        }
    }
}

/// "The reader takes each token from the byte after the last one."
struct Reader<'a> {
    text: &'a [u8],
    position: usize,
    /// The innermost last.
    open: Vec<Open>,
    /// The first digit of the first number out of range.
    out_of_range: Option<usize>,
}

impl Reader<'_> {
    /// The node text that begins here, to its end.
    fn whole(&mut self) -> Result<NodeText, Fault> {
        let mut next = Next::Node;
        loop {
            next = match next {
                Next::Node => self.node()?,
                Next::Row(parts, of) => self.row(parts, of)?,
                Next::Whole(node) => match self.open.pop() {
                    Some(open) => self.inside(open, node)?,
                    None => return Ok(node),
                },
            };
        }
    }

    /// The first token of a node text.
    fn node(&mut self) -> Result<Next, Fault> {
        match self.one_of(b"pn!(<[")? {
            b'p' => return Ok(Next::Whole(NodeText::Property(self.number(MAX_PROPERTY)?))),
            b'n' => return Ok(Next::Whole(NodeText::Name(self.number(MAX_NAME)?))),
            b'!' => self.open.push(Open::Not),
            b'(' => self.open.push(Open::Pair),
            b'<' => {
                let axis = self.number(MAX_AXIS)?;
                self.one_of(b">")?;
                self.open.push(Open::After(axis));
            }
            _ => return Ok(Next::row(RowOf::CompareLeft)),
        }
        Ok(Next::Node)
    }

    /// Goes on behind a node that is whole, inside what was open around it.
    fn inside(&mut self, open: Open, node: NodeText) -> Result<Next, Fault> {
        Ok(match open {
            Open::Not => Next::Whole(NodeText::Not(Box::new(node))),
            Open::After(axis) => Next::Whole(NodeText::After(axis, Box::new(node))),
            Open::Pair => {
                let sign = self.one_of(b"&|")?;
                self.open.push(Open::HalfPair(node, sign));
                Next::Node
            }
            Open::HalfPair(left, sign) => {
                self.one_of(b")")?;
                let pair = if sign == b'&' { NodeText::Both } else { NodeText::Either };
                Next::Whole(pair(Box::new(left), Box::new(node)))
            }
            Open::Row(parts, of) => Next::longer(parts, PartText::Test(node), of),
        })
    }

    /// The next part of a row, or what follows it if it ends.
    fn row(&mut self, parts: RowText, of: RowOf) -> Result<Next, Fault> {
        let part = match self.one_of(of.wanted())? {
            b'/' => PartText::Step(self.number(MAX_AXIS)?),
            b'@' => PartText::Jump(self.number(MAX_NAME)?),
            b'?' => {
                self.open.push(Open::Row(parts, of));
                return Ok(Next::Node);
            }
            b'{' => {
                self.open.push(Open::Row(parts, of));
                return Ok(Next::row(RowOf::BraceLeft));
            }
            end => return self.behind_row(parts, of, end),
        };
        Ok(Next::longer(parts, part, of))
    }

    /// Goes on behind a row that is whole, and the byte that ended it.
    fn behind_row(&mut self, row: RowText, of: RowOf, end: u8) -> Result<Next, Fault> {
        Ok(match of {
            RowOf::CompareLeft => {
                let comparison = if end == b'=' { Comparison::Same } else { Comparison::Differ };
                let channel = self.number(MAX_CHANNEL)?;
                Next::row(RowOf::CompareRight(comparison, channel, row))
            }
            RowOf::CompareRight(comparison, channel, left) => {
                Next::Whole(NodeText::Compare(comparison, channel, left, row))
            }
            RowOf::BraceLeft => Next::row(RowOf::BraceRight(row)),
            RowOf::BraceRight(left) => match self.open.pop() {
                Some(Open::Row(parts, of)) => Next::longer(parts, PartText::Brace(left, row), of),
                _ => unreachable!("a brace stands in a row"),
            },
        })
    }

    /// "Numbers have no leading zeros": `0`, or a digit 1 to 9 with all digits that follow. Of a number out of range
    /// only the place matters.
    fn number(&mut self, most: u8) -> Result<u8, Fault> {
        let place = self.position;
        let first = self.one_of(DIGITS)?;
        let mut value = usize::from(first - b'0');
        while first != b'0'
            && let Some(digit) = self.next_of(DIGITS)
        {
            value = value.saturating_mul(10).saturating_add(usize::from(digit - b'0'));
        }
        if value > most.into() {
            self.out_of_range.get_or_insert(place);
        }
        Ok(value.min(most.into()) as u8)
    }

    /// The next byte, if it is one of these.
    fn next_of(&mut self, wanted: &[u8]) -> Option<u8> {
        let byte = *self.text.get(self.position).filter(|byte| wanted.contains(byte))?;
        self.position += 1;
        Some(byte)
    }

    /// The next byte, which must be one of these.
    fn one_of(&mut self, wanted: &'static [u8]) -> Result<u8, Fault> {
        self.next_of(wanted).ok_or(self.stray(wanted))
    }

    fn stray(&self, wanted: &'static [u8]) -> Fault {
        Fault::Stray { place: self.position, wanted }
    }
}
