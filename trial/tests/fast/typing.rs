//! Typed patterns: what the words of document 02's Job 7 say of texts, one by one.

use oracle::finding::{Finding, Refusal};
use oracle::random::Random;
use trial::differential::implementation::type_pattern;
use trial::fast;
use trial::generate::texts;

/// What is found of the text, and the entries that are written.
fn typed(text: &[u8]) -> (Finding, Vec<[u8; 4]>) {
    let mut destination = [0xa5; 1030];
    let finding = fast::type_pattern(text, &mut destination);
    let Finding::Written { length } = finding else {
        assert_eq!(destination, [0xa5; 1030]);
        return (finding, Vec::new());
    };
    let (file, behind) = destination.split_at(length.into());
    assert!(behind.iter().all(|&byte| byte == 0xa5));
    let (entries, odd) = file[6..].as_chunks();
    assert_eq!((&file[..6], odd), (&[b'P', b'A', b'T', 1, 0, entries.len() as u8][..], &[][..]));
    assert_eq!(fast::read(file), Finding::Read { entries: entries.len() as u16 });
    (finding, entries.to_vec())
}

#[track_caller]
fn writes(text: &str, entries: &[[u8; 4]]) {
    assert_eq!(typed(text.as_bytes()).1, entries, "{text}");
}

#[track_caller]
fn refuses(text: &[u8], number: u16, place: u16) {
    let refused = Finding::Refused(Refusal { number, place });
    assert_eq!(typed(text).0, refused, "{}", String::from_utf8_lossy(text));
}

#[test]
fn each_form_is_an_entry() {
    writes("p31", &[[1, 31, 0, 0]]);
    writes("n127", &[[2, 127, 0, 0]]);
    writes("!p0", &[[1, 0, 0, 0], [3, 0, 0, 0]]);
    writes("(p1&n1)", &[[1, 1, 0, 0], [2, 1, 0, 0], [4, 0, 1, 0]]);
    writes("(p1|n1)", &[[1, 1, 0, 0], [2, 1, 0, 0], [12, 0, 1, 0]]);
    writes("<7>p0", &[[1, 0, 0, 0], [5, 7, 0, 0]]);
    writes("[=0]", &[[6, 0, 255, 255]]);
    writes("[/7#3@127]", &[[8, 7, 255, 0], [9, 127, 255, 0], [7, 3, 0, 1]]);
    writes("[?p0=0{|}]", &[[1, 0, 0, 0], [10, 0, 255, 0], [11, 255, 255, 0], [6, 0, 1, 2]]);
}

#[test]
fn parts_are_completed_in_the_order_of_the_fields() {
    writes(
        "[?p1/2?n3@4=1]",
        &[
            [1, 1, 0, 0],
            [2, 3, 0, 0],
            [9, 4, 255, 0],
            [10, 1, 2, 0],
            [8, 2, 3, 0],
            [10, 0, 4, 0],
            [6, 1, 5, 255],
        ],
    );
    writes("[?<0>p0/1=0]", &[[1, 0, 0, 0], [5, 0, 0, 0], [8, 1, 255, 0], [10, 1, 2, 0], [6, 0, 3, 255]]);
}

#[test]
fn what_follows_a_brace_continues_both_paths() {
    writes("[{/0|/1}/2=0]", &[[8, 2, 255, 0], [8, 0, 0, 0], [8, 1, 0, 0], [11, 1, 2, 0], [6, 0, 3, 255]]);
    writes("[{|/1}/2=0]", &[[8, 2, 255, 0], [8, 1, 0, 0], [11, 0, 1, 0], [6, 0, 2, 255]]);
    writes("[{{|}|}@5=0]", &[[9, 5, 255, 0], [11, 0, 0, 0], [11, 1, 0, 0], [6, 0, 2, 255]]);
    writes(
        "[{?p0|/1}?p1/3=0/3]",
        &[
            [1, 0, 0, 0],
            [1, 1, 0, 0],
            [8, 3, 255, 0],
            [10, 1, 2, 0],
            [10, 0, 3, 0],
            [8, 1, 3, 0],
            [11, 4, 5, 0],
            [6, 0, 6, 2],
        ],
    );
}

#[test]
fn each_different_entry_stands_once() {
    writes("(p0&p0)", &[[1, 0, 0, 0], [4, 0, 0, 0]]);
    writes("(!p0|<0>!p0)", &[[1, 0, 0, 0], [3, 0, 0, 0], [5, 0, 1, 0], [12, 1, 2, 0]]);
    writes("[/0/0=0/0]", &[[8, 0, 255, 0], [8, 0, 0, 0], [6, 0, 1, 0]]);
    let row = |braces| format!("[{}=0]", "{/0|/1}".repeat(braces));
    assert_eq!(typed(row(84).as_bytes()).1.len(), 253);
    refuses(row(85).as_bytes(), 32, 0);
}

/// Texts outside the grammar, and the places where they go wrong.
const FAULTS: [(&str, u16); 30] = [
    ("", 0),
    ("p", 1),
    ("p00", 2),
    ("p01", 2),
    ("p0\n", 2),
    (" p0", 0),
    ("p 0", 1),
    ("q0", 0),
    ("p0p0", 2),
    ("P0", 0),
    ("!", 1),
    ("(p0)", 3),
    ("(p0&p0", 6),
    ("(p0&p0|p0)", 6),
    ("(p32&", 5),
    ("<0p0", 2),
    ("<>p0", 1),
    ("<0>", 3),
    ("[]", 1),
    ("[=]", 2),
    ("[=00]", 3),
    ("[=0=0]", 3),
    ("[{/0|/1|/2}=0]", 7),
    ("[{/0&/1}=0]", 4),
    ("[{/0}=0]", 4),
    ("[?/0=0]", 2),
    ("[^0=0]", 1),
    ("[/0=0}", 5),
    ("[p0=0]", 1),
    ("[@0", 3),
];

#[test]
fn a_text_outside_the_grammar_is_refused_at_its_first_wrong_byte() {
    for (text, place) in FAULTS {
        refuses(text.as_bytes(), 30, place);
    }
    refuses(&[b'!'; 1024], 30, 1024);
    refuses(&[b'('; 1024], 30, 1024);
    refuses(&[b'!'; 1025], 30, 0);
    refuses(&[b'x'; 1025], 30, 0);
    refuses(b"\xff", 30, 0);
}

#[test]
fn the_first_number_out_of_range_is_refused_at_its_first_digit() {
    let wide = ["32", "256", "65536", "4294967296", "18446744073709551616", "18446744073709551617"];
    for number in wide {
        refuses(format!("p{number}").as_bytes(), 31, 1);
        refuses(format!("[/{number}=0]").as_bytes(), 31, 2);
    }
    refuses(format!("n{}", "9".repeat(1000)).as_bytes(), 31, 1);
    let texts = ["p32", "n128", "<8>p0", "[=4]", "[#4]", "[/8=0]", "[@128=0]"];
    for (text, place) in texts.into_iter().zip([1, 1, 1, 2, 2, 2, 2]) {
        refuses(text.as_bytes(), 31, place);
    }
    refuses(b"(p0&(n128|p32))", 31, 6);
    refuses(b"(n128&p0", 30, 8);
}

#[test]
fn entries_and_room_are_looked_at_last() {
    let nots = |number: usize| [&vec![b'!'; number][..], b"p0"].concat();
    assert_eq!(typed(&nots(254)).0, Finding::Written { length: 1026 });
    refuses(&nots(255), 32, 0);
    refuses(&[&[b'!'; 255][..], b"p32"].concat(), 31, 256);
    for length in 0..14 {
        let finding = fast::type_pattern(b"!p0", &mut vec![0; length]);
        assert_eq!(finding, Finding::Refused(Refusal { number: 32, place: 0 }));
    }
    assert_eq!(fast::type_pattern(b"!p0", &mut [0; 14]), Finding::Written { length: 14 });
}

#[test]
fn generated_texts_are_typed_as_the_oracle_does() {
    let generators = [texts::random, texts::misplace, texts::with_number, texts::long, texts::shaped];
    for number in 0..20_000 {
        let mut random = Random::new(7, number);
        let mut text = random.pick(&generators)(&mut random);
        if random.once_in(4) {
            texts::spoil(&mut random, &mut text);
        }
        let length = random.pick(&[1026, 1026, 1025, 50, 0]);
        let [fast, oracle] = [fast::type_pattern, type_pattern].map(|type_pattern| {
            let mut destination = vec![0xa5; length];
            (type_pattern(&text, &mut destination), destination)
        });
        assert_eq!(fast, oracle, "{}", text.escape_ascii());
    }
}
