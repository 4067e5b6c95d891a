//! What stands at the place of a refusal of a text: 30 to 32.

use super::{Conclusion, refused};
use crate::explain::wording::{count, joined};
use crate::finding::{Finding, Refusal};
use crate::pattern::{MAX_AXIS, MAX_CHANNEL, MAX_NAME, MAX_PROPERTY};
use crate::typed::{Fault, MAX_TEXT, entries_of, parse};

/// The longest text that is shown whole, and how much of a longer one is shown before and behind a place.
const WHOLE: usize = 70;
const BEFORE: usize = 40;
const BEHIND: usize = 24;

/// The refusal, and in further lines what was wanted at its place, and the text with a mark under it; of 32, how many
/// entries there are. A text that is too long needs no more than to be called so.
pub fn of_text(text: &[u8], refusal: Refusal) -> Conclusion {
    let detail = match parse(text) {
        Err(Fault::Long) => {
            let longest = count(MAX_TEXT, "byte", "bytes");
            return Conclusion::found(Finding::Refused(refusal), &format!("the text has over {longest}"));
        }
        Err(Fault::Stray { place, wanted }) => {
            let wanted = wanted_words(&text[..place], wanted);
            let blank = if text.get(place) == Some(&b' ') { " A typed pattern has no spaces." } else { "" };
            format!("Wanted there: {wanted}.{blank}\n{}", marked(text, place))
        }
        Err(Fault::Range { place }) => format!(
            "The last property is {MAX_PROPERTY}, the last name {MAX_NAME}, axis {MAX_AXIS}, channel {MAX_CHANNEL}.\n{}",
            marked(text, place)
        ),
        Ok(node) => format!("The text makes {}.", count(entries_of(&node).len(), "entry", "entries")),
    };
    match refused(refusal, &detail) {
        empty if text.is_empty() => Conclusion { meaning: "the text is empty".to_string(), ..empty },
        cut if refusal.number == 30 && usize::from(refusal.place) == text.len() => {
            Conclusion { meaning: "the text ends there, which no typed pattern does".to_string(), ..cut }
        }
        refused => refused,
    }
}

/// What may follow the text so far: another digit, if a number other than 0 stands at its end, or what was asked for.
fn wanted_words(before: &[u8], wanted: &[u8]) -> String {
    let digits = before.iter().rev().take_while(|byte| byte.is_ascii_digit()).count();
    let number = &before[before.len() - digits..];
    let further = if matches!(number, b"" | b"0") { "" } else { "a further digit, or " };
    format!("{further}{}", one_of(wanted))
}

fn one_of(wanted: &[u8]) -> String {
    let signs = |bytes: &[u8]| joined(bytes.iter().map(|&byte| char::from(byte).to_string()));
    match wanted {
        [] => "the end".to_string(),
        [b'0', .., b'9'] => "a digit".to_string(),
        [only] => signs(&[*only]),
        [others @ .., last] => format!("{} or {}", signs(others), signs(&[*last])),
    }
}

/// The text, or the part of it around the place, and below it a mark at the place.
fn marked(text: &[u8], place: usize) -> String {
    let (first, last) = if text.len() <= WHOLE {
        (0, text.len())
    } else {
        (place.saturating_sub(BEFORE), text.len().min(place + BEHIND))
    };
    let (before, behind) = (shown(&text[first..place]), shown(&text[place..last]));
    let cut_before = if first > 0 { ".." } else { "" };
    let cut_behind = if last < text.len() { ".." } else { "" };
    let margin = " ".repeat(cut_before.len() + before.len());
    format!("  {cut_before}{before}{behind}{cut_behind}\n  {margin}^")
}

/// Bytes as they stand; those that can't be seen as escapes.
pub fn shown(bytes: &[u8]) -> String {
    let seen = |byte: u8| match byte {
        b' '..=b'~' => char::from(byte).to_string(),
        _ => byte.escape_ascii().to_string(),
    };
    bytes.iter().map(|&byte| seen(byte)).collect()
}
