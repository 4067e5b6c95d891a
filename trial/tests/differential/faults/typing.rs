//! A typist that is right but for one thing.

use super::completing::{Completer, Continues, RIGHT as COMPLETER};
use oracle::finding::{Finding, Refusal};
use oracle::model;
use oracle::pattern::Pattern;
use oracle::typed::{Fault, parse};
use trial::differential::implementation::{Lent, judge_typed, run_oracle};
use trial::generate::input::Operation;

/// Its parts.
#[derive(Clone, Copy)]
pub struct Typist {
    /// The most bytes of a text.
    longest: usize,
    /// What it takes the text for.
    takes: fn(&[u8]) -> Vec<u8>,
    /// What it makes of a refusal 30 or 31 of the text.
    refuses: fn(&[u8], Refusal) -> Refusal,
    completer: Completer,
    /// The most entries.
    most: usize,
    /// The destination that is wanted, of the length of the file.
    want: fn(usize) -> usize,
    /// Whether it refuses a short destination before it reads the text.
    short_first: bool,
    /// What it does to the destination beside writing the file, told what was found.
    spoil: fn(&mut [u8], Finding),
}

pub const RIGHT: Typist = Typist {
    longest: 1024,
    takes: <[u8]>::to_vec,
    refuses: |_, refusal| refusal,
    completer: COMPLETER,
    most: 255,
    want: |file| file,
    short_first: false,
    spoil: |_, _| {},
};

pub type Mistake = (&'static str, Typist);

/// Mistakes about what is refused, and where.
pub const OTHER_FINDINGS: [Mistake; 24] = [
    ("a leading zero passes", Typist { takes: without_leading_zeros, ..RIGHT }),
    ("a newline at the end passes", Typist { takes: |text| without_last(text, b'\n'), ..RIGHT }),
    ("a space at the end passes", Typist { takes: |text| without_last(text, b' '), ..RIGHT }),
    ("& parts a brace too", Typist { takes: and_in_a_brace, ..RIGHT }),
    ("^ is a step", Typist { takes: |text| replaced(text, b'^', b'/'), ..RIGHT }),
    ("1,024 bytes are too many", Typist { longest: 1023, ..RIGHT }),
    ("what is beyond 1,024 bytes is cut off", Typist { longest: usize::MAX, takes: cut, ..RIGHT }),
    ("a length of 16 bits", Typist { longest: usize::MAX, takes: wrapped, ..RIGHT }),
    ("too many bytes at 1,024", Typist { refuses: |_, it| at_1024(it), ..RIGHT }),
    ("31 before 30", Typist { refuses: range_first, ..RIGHT }),
    ("31 of the last number", Typist { refuses: last_out_of_range, ..RIGHT }),
    ("31 at the letter", Typist { refuses: |_, it| one_earlier(it, 31), ..RIGHT }),
    ("31 behind the number", Typist { refuses: behind_the_number, ..RIGHT }),
    ("30 at the leading zero", Typist { refuses: at_the_zero, ..RIGHT }),
    ("30 for a missing number at the letter", Typist { refuses: at_the_letter, ..RIGHT }),
    ("30 at the end one too early", Typist { refuses: before_the_end, ..RIGHT }),
    ("32 at 255 entries", Typist { most: 254, ..RIGHT }),
    ("256 entries pass", Typist { most: 256, ..RIGHT }),
    ("32 for a destination that is just long enough", Typist { want: |file| file + 1, ..RIGHT }),
    ("32 for a destination that the longest file has no room in", Typist { want: |_| 1026, ..RIGHT }),
    ("32 by the entries alone", Typist { want: |file| file - 6, ..RIGHT }),
    ("32 before 30 and 31", Typist { short_first: true, ..RIGHT }),
    ("a repeat stands again", Typist { completer: Completer { number: |_, _| None, ..COMPLETER }, ..RIGHT }),
    ("a repeat of the last entry alone is seen", Typist { completer: LAST_SEEN, ..RIGHT }),
];

/// Mistakes about numbers.
pub const OTHER_NUMBERS: [Mistake; 18] = [
    ("numbers in 8 bits", Typist { takes: |text| numbers(text, |it| Some(it % (1 << 8))), ..RIGHT }),
    ("numbers in 16 bits", Typist { takes: |text| numbers(text, |it| Some(it % (1 << 16))), ..RIGHT }),
    ("numbers in 32 bits", Typist { takes: |text| numbers(text, |it| Some(it % (1 << 32))), ..RIGHT }),
    ("numbers in 64 bits", Typist { takes: |text| numbers(text, |it| Some(it % (1 << 64))), ..RIGHT }),
    ("property 32 passes", Typist { takes: |text| exchanged(text, b'p', 32, 31), ..RIGHT }),
    ("name 128 passes", Typist { takes: |text| exchanged(text, b'n', 128, 127), ..RIGHT }),
    ("after on axis 8 passes", Typist { takes: |text| exchanged(text, b'<', 8, 7), ..RIGHT }),
    ("same on channel 4 passes", Typist { takes: |text| exchanged(text, b'=', 4, 3), ..RIGHT }),
    ("differ on channel 4 passes", Typist { takes: |text| exchanged(text, b'#', 4, 3), ..RIGHT }),
    ("step on axis 8 passes", Typist { takes: |text| exchanged(text, b'/', 8, 7), ..RIGHT }),
    ("jump to name 128 passes", Typist { takes: |text| exchanged(text, b'@', 128, 127), ..RIGHT }),
    ("property 31 is refused", Typist { takes: |text| exchanged(text, b'p', 31, 32), ..RIGHT }),
    ("name 127 is refused", Typist { takes: |text| exchanged(text, b'n', 127, 128), ..RIGHT }),
    ("after on axis 7 is refused", Typist { takes: |text| exchanged(text, b'<', 7, 8), ..RIGHT }),
    ("same on channel 3 is refused", Typist { takes: |text| exchanged(text, b'=', 3, 4), ..RIGHT }),
    ("differ on channel 3 is refused", Typist { takes: |text| exchanged(text, b'#', 3, 4), ..RIGHT }),
    ("step on axis 7 is refused", Typist { takes: |text| exchanged(text, b'/', 7, 8), ..RIGHT }),
    ("jump to name 127 is refused", Typist { takes: |text| exchanged(text, b'@', 127, 128), ..RIGHT }),
];

const LAST_SEEN: Completer = Completer {
    number: |entries, entry| entries.len().checked_sub(1).filter(|&last| entries[last] == entry),
    ..COMPLETER
};

/// Mistakes about what follows a brace, which models see too.
pub const BRACES: [Mistake; 3] = [
    ("what follows a brace continues its first path alone", brace(Continues::First)),
    ("what follows a brace continues its second path alone", brace(Continues::Second)),
    ("what follows a brace continues neither path", brace(Continues::Neither)),
];

const fn brace(continues: Continues) -> Typist {
    Typist { completer: Completer { continues, ..COMPLETER }, ..RIGHT }
}

/// Mistakes that leave other bytes in the destination, or a file of another length.
pub const OTHER_BYTES: [Mistake; 8] = [
    ("the rest of a row before a test's node", completer(Completer { rest_before_node: true, ..COMPLETER })),
    ("the second path of a brace first", completer(Completer { second_path_first: true, ..COMPLETER })),
    ("the second node of two first", completer(Completer { second_node_first: true, ..COMPLETER })),
    ("the right row of a comparison first", completer(Completer { right_row_first: true, ..COMPLETER })),
    (
        "a brace of two equal paths is that path",
        completer(Completer { drops_equal_paths: true, ..COMPLETER }),
    ),
    (
        "parentheses of two equal nodes are that node",
        completer(Completer { drops_equal_nodes: true, ..COMPLETER }),
    ),
    ("zeros behind the file", Typist { spoil: zeros_behind, ..RIGHT }),
    ("the byte behind the file", Typist { spoil: next_byte, ..RIGHT }),
];

const fn completer(completer: Completer) -> Typist {
    Typist { completer, ..RIGHT }
}

/// Mistakes that change the destination though the text is refused with this number.
pub const TOUCHED: [(u16, Typist); 3] = [
    (30, Typist { spoil: |new, found| touched(new, found, 30), ..RIGHT }),
    (31, Typist { spoil: |new, found| touched(new, found, 31), ..RIGHT }),
    (32, Typist { spoil: |new, found| touched(new, found, 32), ..RIGHT }),
];

/// The runs of digits of a text and what stands between them, each as it is.
fn runs(text: &[u8]) -> impl Iterator<Item = &[u8]> {
    text.chunk_by(|one, next| one.is_ascii_digit() == next.is_ascii_digit())
}

fn without_leading_zeros(text: &[u8]) -> Vec<u8> {
    let stripped = runs(text).map(|run| match run.iter().position(|byte| *byte != b'0') {
        Some(first) if run[0] == b'0' => &run[first..],
        None => b"0",
        _ => run,
    });
    stripped.flatten().copied().collect()
}

fn without_last(text: &[u8], byte: u8) -> Vec<u8> {
    text.strip_suffix(&[byte]).unwrap_or(text).to_vec()
}

fn replaced(text: &[u8], byte: u8, by: u8) -> Vec<u8> {
    text.iter().map(|&it| if it == byte { by } else { it }).collect()
}

/// The text with `|` for the first byte that can't stand where it does, if that is `&` in a brace.
fn and_in_a_brace(text: &[u8]) -> Vec<u8> {
    let mut text = text.to_vec();
    if let Err(Fault::Stray { place, wanted }) = parse(&text)
        && wanted.contains(&b'|')
        && text.get(place) == Some(&b'&')
    {
        text[place] = b'|';
    }
    text
}

fn cut(text: &[u8]) -> Vec<u8> {
    text[..text.len().min(1024)].to_vec()
}

fn wrapped(text: &[u8]) -> Vec<u8> {
    text[..text.len() % 65_536].to_vec()
}

/// The text with each number of up to 30 digits changed.
fn numbers(text: &[u8], change: fn(u128) -> Option<u128>) -> Vec<u8> {
    let changed = runs(text).flat_map(|run| {
        let number = str::from_utf8(run).ok().filter(|_| run[0] != b'0' && run.len() < 30);
        match number.and_then(|digits| digits.parse().ok()).and_then(change) {
            Some(number) => number.to_string().into_bytes(),
            None => run.to_vec(),
        }
    });
    changed.collect()
}

/// The text with one number for another behind a byte.
fn exchanged(text: &[u8], before: u8, number: u128, other: u128) -> Vec<u8> {
    let (number, other) = (number.to_string(), other.to_string());
    let mut behind = None;
    let changed = runs(text).flat_map(|run| {
        let is_such = behind == Some(before) && run == number.as_bytes();
        behind = run.last().copied();
        if is_such { other.as_bytes().to_vec() } else { run.to_vec() }
    });
    changed.collect()
}

fn at_1024(refusal: Refusal) -> Refusal {
    if refusal == (Refusal { number: 30, place: 0 }) { Refusal { number: 30, place: 1024 } } else { refusal }
}

fn one_earlier(refusal: Refusal, number: u16) -> Refusal {
    if refusal.number == number { Refusal { place: refusal.place - 1, ..refusal } } else { refusal }
}

/// The numbers out of range whose digits all stand before the place: where they begin.
fn out_of_range(text: &[u8], before: usize) -> Vec<u16> {
    let mut places = Vec::new();
    let (mut at, mut sign) = (0, 0);
    for run in runs(&text[..before]) {
        let most = match sign {
            b'p' => 31,
            b'n' | b'@' => 127,
            b'<' | b'/' => 7,
            _ => 3,
        };
        let value = str::from_utf8(run).map_or(Ok(0), |digits| digits.parse::<u64>());
        if run[0].is_ascii_digit() && !value.is_ok_and(|value| value <= most) {
            places.push(at as u16);
        }
        at += run.len();
        sign = run[run.len() - 1];
    }
    places
}

fn range_first(text: &[u8], refusal: Refusal) -> Refusal {
    match out_of_range(text, refusal.place.into()).first() {
        Some(&place) => Refusal { number: 31, place },
        None => refusal,
    }
}

fn last_out_of_range(text: &[u8], refusal: Refusal) -> Refusal {
    match out_of_range(text, text.len()).last() {
        Some(&place) if refusal.number == 31 => Refusal { number: 31, place },
        _ => refusal,
    }
}

fn behind_the_number(text: &[u8], refusal: Refusal) -> Refusal {
    let place = refusal.place as usize;
    match refusal.number {
        31 => {
            let digits = text[place..].iter().take_while(|byte| byte.is_ascii_digit()).count();
            Refusal { place: (place + digits) as u16, ..refusal }
        }
        _ => refusal,
    }
}

fn at_the_zero(text: &[u8], refusal: Refusal) -> Refusal {
    let place = refusal.place as usize;
    let behind_zero = place > 0 && text[place - 1] == b'0';
    let digit = text.get(place).is_some_and(u8::is_ascii_digit);
    if behind_zero && digit { one_earlier(refusal, 30) } else { refusal }
}

fn at_the_letter(text: &[u8], refusal: Refusal) -> Refusal {
    match parse(text) {
        Err(Fault::Stray { wanted: b"0123456789", .. }) => one_earlier(refusal, 30),
        _ => refusal,
    }
}

fn before_the_end(text: &[u8], refusal: Refusal) -> Refusal {
    if refusal.place > 0 && refusal.place as usize == text.len() { one_earlier(refusal, 30) } else { refusal }
}

fn zeros_behind(destination: &mut [u8], found: Finding) {
    if let Finding::Written { length } = found {
        destination[length as usize..].fill(0);
    }
}

fn next_byte(destination: &mut [u8], found: Finding) {
    if let Finding::Written { length } = found
        && let Some(byte) = destination.get_mut(length as usize)
    {
        *byte = !*byte;
    }
}

/// Writes the mark, as far as there is room for it, if the text was refused with this number.
fn touched(destination: &mut [u8], found: Finding, refused: u16) {
    if matches!(found, Finding::Refused(Refusal { number, .. }) if number == refused) {
        destination.iter_mut().zip(b"PAT").for_each(|(byte, mark)| *byte = *mark);
    }
}

impl Typist {
    /// As an implementation: other operations are left to the oracle.
    pub fn run(self, operation: Operation, lent: Lent) -> Finding {
        match operation {
            Operation::Typing => self.types(lent.pattern, lent.area),
            _ => run_oracle(operation, lent),
        }
    }

    /// As an implementation whose mistake is left to be seen by whether models meet the file: what is refused, and the
    /// area, is left to the oracle.
    pub fn run_judged(self, operation: Operation, Lent { pattern, proposal, area }: Lent) -> Finding {
        let own = Lent { pattern: &mut pattern.to_vec(), proposal: &mut proposal.to_vec(), area: &mut [] };
        let found = run_oracle(operation, Lent { pattern, proposal, area });
        match (operation, found) {
            (Operation::Typed, Finding::Met { .. } | Finding::Unmet) => {
                let judge = |file: &[u8], model: &[u8], _: &mut [u8]| {
                    model::judge(file, model, &mut [0; model::AREA])
                };
                judge_typed(|text, new| self.types(text, new), judge, own)
            }
            _ => found,
        }
    }

    fn types(self, text: &[u8], destination: &mut [u8]) -> Finding {
        let found = self.written(text, destination).unwrap_or_else(Finding::Refused);
        (self.spoil)(destination, found);
        found
    }

    fn written(self, text: &[u8], destination: &mut [u8]) -> Result<Finding, Refusal> {
        let short = Refusal { number: 32, place: 0 };
        if self.short_first && destination.len() < 10 {
            return Err(short);
        }
        if text.len() > self.longest {
            return Err((self.refuses)(text, Refusal { number: 30, place: 0 }));
        }
        let text = (self.takes)(text);
        let tree = parse(&text).map_err(|fault| (self.refuses)(&text, fault.into()))?;
        let entries = self.completer.entries(&tree);
        if entries.len() > self.most {
            return Err(short);
        }
        let file = Pattern { entries }.to_bytes();
        if destination.len() < (self.want)(file.len()) {
            return Err(short);
        }
        let room = destination.len().min(file.len());
        destination[..room].copy_from_slice(&file[..room]);
        Ok(Finding::Written { length: file.len() as u16 })
    }
}
