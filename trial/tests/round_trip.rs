//! Typed patterns there and back: a text is typed, the file written as a text, and that typed again.

use oracle::pattern::{self, Pattern};
use oracle::random::Random;
use oracle::typed::spell;
use trial::generate::texts;
use unit::{Finding, PATTERN_LONGEST};

/// How many texts are written and go there and back.
const TEXTS: usize = 100_000;

/// The pattern of a text's file, and the file; nothing for a text that is refused.
fn typed(text: &[u8]) -> Option<(Pattern, Vec<u8>)> {
    let mut destination = [0; PATTERN_LONGEST];
    let Finding::Written { length } = unit::type_pattern(text, &mut destination) else { return None };
    let file = destination[..length.into()].to_vec();
    let pattern = pattern::parse(&file).expect("a file that was written is read");
    Some((pattern, file))
}

#[test]
fn the_text_of_a_typed_pattern_gives_its_file_again() {
    let mut written = 0;
    for number in 0.. {
        let text = texts::random(&mut Random::new(11, number));
        let Some((pattern, file)) = typed(&text) else { continue };
        let shown = String::from_utf8_lossy(&text);
        let again = spell(&pattern).unwrap_or_else(|| panic!("{shown}: its file has no text"));
        assert!(again.len() <= text.len(), "{shown}: {again} is longer");
        let (same, file_again) = typed(again.as_bytes()).unwrap_or_else(|| panic!("{again} is refused"));
        assert_eq!(file_again, file, "{shown}, then {again}");
        assert_eq!(spell(&same), Some(again));
        written += 1;
        if written == TEXTS {
            return;
        }
    }
}
