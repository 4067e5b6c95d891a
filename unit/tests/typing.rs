//! The wrapper on typed patterns.

use unit::{Finding, PATTERN_LONGEST, TEXT_LONGEST};

/// A pattern file of these entries.
fn file(entries: &[[u8; 4]]) -> Vec<u8> {
    [&[b'P', b'A', b'T', 1, 0, entries.len() as u8], entries.as_flattened()].concat()
}

/// The destination is just long enough, or longer, and what is beyond stays.
#[test]
fn a_typed_pattern_is_written() {
    let test = [[1, 0, 0, 0], [8, 2, 255, 0], [10, 0, 1, 0], [8, 1, 1, 0], [11, 2, 3, 0], [6, 3, 4, 255]];
    for (text, entries) in [("[{?p0|/1}/2=3]", &test[..]), ("n127", &[[2, 127, 0, 0]])] {
        let mut destination = [7; PATTERN_LONGEST];
        let file = file(entries);
        let short = &mut destination[..file.len() - 1];
        let refused = Finding::Refused { number: 32, place: 0 };
        assert_eq!(unit::type_pattern(text.as_bytes(), short), refused);
        assert_eq!(destination, [7; PATTERN_LONGEST]);
        let written = Finding::Written { length: file.len() as u16 };
        assert_eq!(unit::type_pattern(text.as_bytes(), &mut destination[..file.len()]), written);
        assert_eq!(unit::type_pattern(text.as_bytes(), &mut destination), written);
        assert_eq!(destination[..file.len()], file);
        assert!(destination[file.len()..].iter().all(|&byte| byte == 7));
        assert_eq!(unit::read(&file), Finding::Read { entries: entries.len() as u16 });
    }
}

#[test]
fn the_longest_pattern_has_255_entries() {
    let nots = |number: usize| [&vec![b'!'; number][..], b"p0"].concat();
    let mut destination = [7; PATTERN_LONGEST];
    let written = Finding::Written { length: PATTERN_LONGEST as u16 };
    assert_eq!(unit::type_pattern(&nots(254), &mut destination), written);
    let refused = Finding::Refused { number: 32, place: 0 };
    assert_eq!(unit::type_pattern(&nots(255), &mut destination), refused);
    assert_eq!(unit::type_pattern(&nots(TEXT_LONGEST - 2), &mut destination), refused);
}

#[test]
fn a_text_at_fault_is_refused() {
    let mut destination = [7; PATTERN_LONGEST];
    let refusals: [(&[u8], u16, u16); 8] = [
        (b"", 30, 0),
        (b"p0\n", 30, 2),
        (b"(p32&", 30, 5),
        (b"p00", 30, 2),
        (&[b'!'; TEXT_LONGEST], 30, TEXT_LONGEST as u16),
        (&[b'!'; TEXT_LONGEST + 1], 30, 0),
        (b"(n127&n128)", 31, 7),
        (b"[/18446744073709551616=0]", 31, 2),
    ];
    for (text, number, place) in refusals {
        let text_shown = String::from_utf8_lossy(text);
        let refused = Finding::Refused { number, place };
        assert_eq!(unit::type_pattern(text, &mut destination), refused, "{text_shown}");
        assert_eq!(unit::type_pattern(text, &mut []), refused, "{text_shown}");
        assert_eq!(destination, [7; PATTERN_LONGEST]);
    }
}
