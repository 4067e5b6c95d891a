//! Typed patterns: what an input shows of refusals 30 to 32, of how entries are completed, and of judging one.

use super::limits::{Judged, Limit};
use crate::generate::input::{Input, Operation};
use oracle::finding::Finding;
use oracle::typed::{Fault, MAX_TEXT, parse, type_pattern};

pub const REFUSED: [Limit; 27] = [
    ("no text refused 30", |it| it.refused(30) && it.text().is_empty()),
    ("1,024 bytes refused 30 at their end", |it| it.place(30) == Some(MAX_TEXT)),
    ("1,025 bytes refused 30, right but for their number", |it| {
        it.one_over().is_some_and(|rest| parse(rest).is_ok())
    }),
    ("1,025 bytes refused 30, at fault elsewhere", |it| {
        it.one_over().is_some_and(|rest| matches!(parse(rest), Err(Fault::Stray { place: 1.., .. })))
    }),
    ("1,025 bytes refused 30, a number out of range", |it| {
        it.one_over().is_some_and(|rest| matches!(parse(rest), Err(Fault::Range { .. })))
    }),
    ("over 65,535 bytes refused 30", |it| it.refused(30) && it.text().len() > 65_535),
    ("digit behind 0 refused 30", |it| it.wrong(|before, at| before == b'0' && at.is_ascii_digit())),
    ("0 behind 0 refused 30", |it| it.wrong(|before, at| before == b'0' && at == b'0')),
    ("newline behind a whole text refused 30", |it| {
        it.place(30).is_some_and(|place| it.text()[place..] == *b"\n" && parse(&it.text()[..place]).is_ok())
    }),
    ("text behind a whole text refused 30", |it| {
        it.place(30).is_some_and(|place| place > 0 && parse(&it.text()[..place]).is_ok())
    }),
    ("second | in a brace refused 30", |it| it.wrong_where(b"/@?{}", b'|')),
    ("& in a brace refused 30", |it| it.wrong_where(b"/@?{|", b'&')),
    ("second & or | in parentheses refused 30", |it| {
        it.wrong_where(b")", b'&') || it.wrong_where(b")", b'|')
    }),
    ("refused 30 behind a number out of range", |it| {
        it.refused_30().is_some_and(|(before, _)| has_beyond(before))
    }),
    ("refused 30 before a number out of range", |it| {
        it.refused_30().is_some_and(|(_, behind)| has_beyond(behind))
    }),
    ("first of two numbers out of range refused 31", |it| {
        it.place(31).is_some_and(|place| has_beyond(behind_number(it.text(), place)))
    }),
    ("number behind others refused 31", |it| it.place(31).is_some_and(|place| place > 8)),
    ("number refused 31 below over 255 nots", |it| {
        it.refused(31) && it.text().iter().take_while(|byte| **byte == b'!').count() > 254
    }),
    ("number refused 31, no destination", |it| it.refused(31) && it.input.area.length == 0),
    ("fault refused 30, no destination", |it| it.refused(30) && it.input.area.length == 0),
    ("256 entries refused 32", |it| {
        it.refused(32) && it.text()[0] == b'!' && file_of(&it.text()[1..]) == Some(1026)
    }),
    ("256 entries and more refused 32 in 1,026 bytes", |it| {
        it.refused(32) && it.file().is_none() && it.input.area.length == 1026
    }),
    ("256 entries and more refused 32 in over 1,026 bytes", |it| {
        it.refused(32) && it.file().is_none() && it.input.area.length > 1026
    }),
    ("destination one short refused 32", |it| it.refused(32) && it.file() == Some(it.input.area.length + 1)),
    ("destination of 1,025 bytes refused 32 for a file of 1,026", |it| {
        it.refused(32) && it.input.area.length == 1025 && it.file() == Some(1026)
    }),
    ("no destination refused 32", |it| it.refused(32) && it.input.area.length == 0),
    ("destination shorter than the header refused 32", |it| {
        it.refused(32) && (1..6).contains(&it.input.area.length)
    }),
];

pub const COMPLETED: [Limit; 30] = [
    ("one entry", |it| it.length() == Some(10)),
    ("255 entries", |it| it.length() == Some(1026)),
    ("1,024 bytes of text", |it| it.written() && it.text().len() == MAX_TEXT),
    ("destination as long as the file", |it| it.destination_over(0)),
    ("destination one longer", |it| it.destination_over(1)),
    ("file of 1,026 bytes in as many", |it| it.destination_over(0) && it.input.area.length == 1026),
    ("property", |it| it.writes(1)),
    ("name", |it| it.writes(2)),
    ("not", |it| it.writes(3)),
    ("both", |it| it.writes(4)),
    ("after", |it| it.writes(5)),
    ("same", |it| it.writes(6)),
    ("differ", |it| it.writes(7)),
    ("step", |it| it.writes(8)),
    ("jump", |it| it.writes(9)),
    ("either", |it| it.writes(12)),
    ("comparison of two ends", |it| it.written_with(|entry| is_comparison(entry) && entry[2..] == [255; 2])),
    ("test whose node comes before the rest of its row", |it| {
        it.written_with(|entry| entry[0] == 10 && entry[1] < entry[2] && entry[2] != 255)
    }),
    ("test whose node comes behind the rest, which stands already", |it| {
        it.written_with(|entry| entry[0] == 10 && entry[1] > entry[2])
    }),
    ("test at the end of a row", |it| it.written_with(|entry| entry[0] == 10 && entry[2] == 255)),
    ("fork of two ends", |it| it.written_with(|entry| *entry == [11, 255, 255, 0])),
    ("fork of equal paths", |it| it.written_with(|entry| entry[0] == 11 && entry[1] == entry[2])),
    ("fork whose second path comes before its first", |it| {
        it.written_with(|entry| entry[0] == 11 && entry[1] > entry[2])
    }),
    ("something behind a brace", |it| it.written() && it.goes_on_behind_a_brace()),
    ("empty first path of a brace with something behind", |it| it.continues_an_empty_path()),
    ("brace at the end of a brace, with something behind", |it| it.written() && it.goes_on_behind(b"}}")),
    ("entry that the text has more than once", |it| it.written() && it.typed.len() < it.items()),
    ("no entry that the text has more than once", |it| {
        it.written() && it.typed.len() == it.items() && it.items() > 9
    }),
    ("50 braces in a row", |it| {
        it.written() && it.text().windows(150).any(|row| row.chunks(3).all(|brace| brace == b"{|}"))
    }),
    ("100 parentheses in one another", |it| {
        it.written() && it.text().windows(100).any(|row| row.iter().all(|byte| *byte == b')'))
    }),
];

pub const JUDGED_TEXT: [Limit; 6] = [
    ("met", |it| it.met()),
    ("unmet", |it| it.finding == Finding::Unmet),
    ("met, something behind a brace", |it| it.met() && it.goes_on_behind_a_brace()),
    ("unmet, something behind a brace", |it| it.finding == Finding::Unmet && it.goes_on_behind_a_brace()),
    ("met, tests in the text", |it| it.met() && it.text().contains(&b'?')),
    ("met, names in the text", |it| it.met() && it.text().iter().any(|byte| matches!(byte, b'n' | b'@'))),
];

fn is_comparison(entry: &[u8; 4]) -> bool {
    matches!(entry[0], 6 | 7)
}

/// The entries that were written of a text.
pub fn entries_of(input: &Input, finding: Finding) -> Vec<[u8; 4]> {
    match (input.operation, finding) {
        (Operation::Typing, Finding::Written { .. }) => {
            let file = type_pattern(&input.pattern, usize::MAX).expect("it was written");
            file[6..].as_chunks().0.to_vec()
        }
        _ => Vec::new(),
    }
}

/// The length of the text's file, for a destination that is long enough.
fn file_of(text: &[u8]) -> Option<usize> {
    type_pattern(text, usize::MAX).ok().map(|file| file.len())
}

/// Whether a number stands there that is out of range wherever it stands.
fn has_beyond(text: &[u8]) -> bool {
    let numbers = text.split(|byte| !byte.is_ascii_digit());
    numbers.into_iter().any(|digits| digits.len() > 3 || digits.len() == 3 && digits > b"127")
}

fn behind_number(text: &[u8], place: usize) -> &[u8] {
    let digits = text[place..].iter().take_while(|byte| byte.is_ascii_digit()).count();
    &text[place + digits..]
}

impl Judged<'_> {
    fn text(&self) -> &[u8] {
        &self.input.pattern
    }

    /// The length of the text's file, if there is one.
    fn file(&self) -> Option<usize> {
        file_of(self.text())
    }

    /// What follows the `!` of a text of 1,025 bytes: if the text is at fault for more than its length, so is that.
    fn one_over(&self) -> Option<&[u8]> {
        let rest = self.text().strip_prefix(b"!")?;
        (rest.len() == MAX_TEXT).then_some(rest)
    }

    /// What stands before the byte that was refused 30, and from it on.
    fn refused_30(&self) -> Option<(&[u8], &[u8])> {
        let place = self.place(30)?;
        (self.text().len() <= MAX_TEXT).then(|| self.text().split_at(place))
    }

    /// Whether a byte was refused 30 of which, and of the one before it, this is true.
    fn wrong(&self, is_such: fn(u8, u8) -> bool) -> bool {
        self.refused_30().is_some_and(|(before, from)| {
            before.last().zip(from.first()).is_some_and(|(before, at)| is_such(*before, *at))
        })
    }

    /// Whether this byte was refused 30 where one of those was asked for.
    fn wrong_where(&self, asked: &[u8], byte: u8) -> bool {
        let fault = || parse(self.text()).err();
        self.refused_30().is_some_and(|(_, from)| from.first() == Some(&byte))
            && matches!(fault(), Some(Fault::Stray { wanted, .. }) if wanted == asked)
    }

    fn written_with(&self, is_such: fn(&[u8; 4]) -> bool) -> bool {
        self.typed.iter().any(is_such)
    }

    fn writes(&self, kind: u8) -> bool {
        self.typed.iter().any(|entry| entry[0] == kind)
    }

    /// How many entries the text would have if none were equal.
    fn items(&self) -> usize {
        self.text().iter().filter(|byte| b"pn!(<[/@?{".contains(byte)).count()
    }

    fn goes_on_behind_a_brace(&self) -> bool {
        self.goes_on_behind(b"}")
    }

    /// Whether a row goes on behind such bytes.
    fn goes_on_behind(&self, bytes: &[u8]) -> bool {
        let goes_on = |part: &[u8]| part.starts_with(bytes) && b"/@?{".contains(&part[bytes.len()]);
        self.text().windows(bytes.len() + 1).any(goes_on)
    }

    /// Whether a text was written with a brace that begins with `|` and something behind a brace without braces in it.
    fn continues_an_empty_path(&self) -> bool {
        let mut braces = self.text().split(|byte| *byte == b'{').skip(1);
        self.written()
            && braces.any(|brace| {
                let end = brace.iter().position(|byte| *byte == b'}');
                brace.first() == Some(&b'|')
                    && end.is_some_and(|end| brace.get(end + 1).is_some_and(|next| b"/@?".contains(next)))
            })
    }
}
