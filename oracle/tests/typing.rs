//! Typing a pattern: every form, the order of entries, and refusals 30 to 32 with their places.

mod common;

use common::*;
use oracle::random::Random;
use oracle::typed::type_pattern;

/// The bytes of the longest pattern file.
const LONGEST: usize = 6 + 4 * 255;

/// Checks the entries that a text gives.
fn gives(text: &str, entries: &[[u8; 4]]) {
    assert_eq!(type_pattern(text.as_bytes(), LONGEST), Ok(pattern(entries)), "{text}");
}

/// Number and place of what is refused of a text.
fn refused(text: impl AsRef<[u8]>) -> (u16, u16) {
    let text = text.as_ref();
    let refusal = type_pattern(text, LONGEST).expect_err(&String::from_utf8_lossy(text));
    (refusal.number, refusal.place)
}

/// How many entries a text gives.
fn entries(text: &str) -> u8 {
    type_pattern(text.as_bytes(), LONGEST).expect(text)[5]
}

#[test]
fn every_form() {
    let (p1, step, end) = ([1, 1, 0, 0], [8, 7, 255, 0], 255);
    gives("p0", &[[1, 0, 0, 0]]);
    gives("p31", &[[1, 31, 0, 0]]);
    gives("n127", &[[2, 127, 0, 0]]);
    gives("!p1", &[p1, [3, 0, 0, 0]]);
    gives("(p1&n0)", &[p1, [2, 0, 0, 0], [4, 0, 1, 0]]);
    gives("(p1|n0)", &[p1, [2, 0, 0, 0], [12, 0, 1, 0]]);
    gives("<7>p1", &[p1, [5, 7, 0, 0]]);
    gives("[=0]", &[[6, 0, end, end]]);
    gives("[#3]", &[[7, 3, end, end]]);
    gives("[/7=1]", &[step, [6, 1, 0, end]]);
    gives("[#2/7]", &[step, [7, 2, end, 0]]);
    gives("[@127=0]", &[[9, 127, end, 0], [6, 0, 0, end]]);
    gives("[?p1=0]", &[p1, [10, 0, end, 0], [6, 0, 1, end]]);
    gives("[{/7|}=0]", &[step, [11, 0, end, 0], [6, 0, 1, end]]);
    gives("[/0=0/1]", &[[8, 0, end, 0], [8, 1, end, 0], [6, 0, 0, 1]]);
    gives("[/0#2]", &[[8, 0, end, 0], [7, 2, 0, end]]);
}

#[test]
fn the_bench_readings() {
    gives("(<0>p0&!<0>p0)", &ENTRIES_A);
    gives("([/0=0/1]&[/0#0/1])", &ENTRIES_G);
    gives("[#0]", &[[7, 0, 255, 255]]);
}

/// Parts in the order of the fields x, y, z, and in a row the rest of it before the entry itself.
#[test]
fn the_order_of_completion() {
    gives("[/1/2/3=0]", &[[8, 3, 255, 0], [8, 2, 0, 0], [8, 1, 1, 0], [6, 0, 2, 255]]);
    gives("[?p0/1=0]", &[[1, 0, 0, 0], [8, 1, 255, 0], [10, 0, 1, 0], [6, 0, 2, 255]]);
    gives(
        "[@5?<0>p0/1=0]",
        &[[1, 0, 0, 0], [5, 0, 0, 0], [8, 1, 255, 0], [10, 1, 2, 0], [9, 5, 3, 0], [6, 0, 4, 255]],
    );
    gives("(p1&(p0|p1))", &[[1, 1, 0, 0], [1, 0, 0, 0], [12, 1, 0, 0], [4, 0, 2, 0]]);
    gives("[/1=0/0]", &[[8, 1, 255, 0], [8, 0, 255, 0], [6, 0, 0, 1]]);
}

#[test]
fn what_follows_a_brace_continues_both_paths() {
    let rest = [8, 2, 255, 0];
    let forked = [rest, [8, 0, 0, 0], [8, 1, 0, 0], [11, 1, 2, 0], [6, 0, 3, 255]];
    gives("[{/0|/1}/2=0]", &forked);
    gives("[{/0/2|/1/2}=0]", &forked);
    gives("[{|/1}/2=0]", &[rest, [8, 1, 0, 0], [11, 0, 1, 0], [6, 0, 2, 255]]);
    gives("[{|}=0]", &[[11, 255, 255, 0], [6, 0, 0, 255]]);
    gives("[{|}/2=0]", &[rest, [11, 0, 0, 0], [6, 0, 1, 255]]);
    gives(
        "[{{/0|/1}|/3}/2=0]",
        &[rest, [8, 0, 0, 0], [8, 1, 0, 0], [11, 1, 2, 0], [8, 3, 0, 0], [11, 3, 4, 0], [6, 0, 5, 255]],
    );
    gives(
        "[{/0|/1}{/0|/1}=0]",
        &[
            [8, 0, 255, 0],
            [8, 1, 255, 0],
            [11, 0, 1, 0],
            [8, 0, 2, 0],
            [8, 1, 2, 0],
            [11, 3, 4, 0],
            [6, 0, 5, 255],
        ],
    );
    gives("[{?p0|/1}=0]", &[[1, 0, 0, 0], [10, 0, 255, 0], [8, 1, 255, 0], [11, 1, 2, 0], [6, 0, 3, 255]]);
}

#[test]
fn each_different_entry_stands_once() {
    gives("((p0&p0)|(p0&p0))", &[[1, 0, 0, 0], [4, 0, 0, 0], [12, 1, 1, 0]]);
    gives("[/0=0/0]", &[[8, 0, 255, 0], [6, 0, 0, 0]]);
    gives("([/0=0]&[/0#0])", &[[8, 0, 255, 0], [6, 0, 0, 255], [7, 0, 0, 255], [4, 1, 2, 0]]);
    gives("(n3&[@3=0])", &[[2, 3, 0, 0], [9, 3, 255, 0], [6, 0, 1, 255], [4, 0, 2, 0]]);
}

/// Braces in a row and inside each other, whose paths written out would be of exponential length.
#[test]
fn braces_do_not_multiply() {
    assert_eq!(entries(&format!("[{}=0]", "{/0|/1}".repeat(84))), 253);
    assert_eq!(entries(&format!("[{}=0]", "{|}".repeat(254))), 255);
    assert_eq!(entries(&format!("[{}/0{}=0]", "{".repeat(250), "|}".repeat(250))), 252);
    assert_eq!(entries(&format!("[{}/0{}=0]", "{|".repeat(250), "}".repeat(250))), 252);
    let nested = (0..6).fold("/0".to_string(), |inner, _| format!("{{{inner}|{inner}}}"));
    assert_eq!(entries(&format!("[{nested}{nested}=0]")), 15);
    assert_eq!(refused(format!("[{}=0]", "{|}".repeat(339))), (32, 0));
    assert_eq!(refused(format!("[{}{}=0]", "{".repeat(340), "|}".repeat(340))), (32, 0));
}

/// Texts and the first byte, or the end, that no text of the grammar could have there.
const OUTSIDE: [(&str, u16); 41] = [
    ("", 0),
    ("p", 1),
    ("x", 0),
    ("p00", 2),
    ("p01", 2),
    ("n007", 2),
    ("p-1", 1),
    ("p0p0", 2),
    ("p0 ", 2),
    (" p0", 0),
    ("p0\n", 2),
    ("(p0&p0", 6),
    ("(p0p0)", 3),
    ("(p0,p0)", 3),
    ("(p0&p0|p0)", 6),
    ("(p0)", 3),
    ("<0p0", 2),
    ("<>p0", 1),
    ("<00>p0", 2),
    ("[", 1),
    ("[]", 1),
    ("[=]", 2),
    ("[=00]", 3),
    ("[=0=0]", 3),
    ("[==0]", 2),
    ("[p0=0]", 1),
    ("[/0 =0]", 3),
    ("[/=0]", 2),
    ("[{/0|/1|/2}=0]", 7),
    ("[{/0&/1}=0]", 4),
    ("[{/0}=0]", 4),
    ("[{=0}]", 2),
    ("[{|=0}]", 3),
    ("[^0=0]", 1),
    ("^0", 0),
    ("/0", 0),
    ("e0", 0),
    ("[.=0]", 1),
    ("P0", 0),
    ("p0\0", 2),
    ("p\u{b2}", 1),
];

#[test]
fn places_outside_the_grammar() {
    for (text, place) in OUTSIDE {
        assert_eq!(refused(text), (30, place), "{text:?}");
    }
}

/// The grammar is looked at to its end before any number is.
#[test]
fn numbers_out_of_range() {
    let places = [
        ("p32", 1),
        ("n128", 1),
        ("<8>p0", 1),
        ("[=4]", 2),
        ("[/8=0]", 2),
        ("[@128=0]", 2),
        ("[=0?p32]", 5),
        ("(p0&(n200|p99))", 6),
        ("[/8=9@200]", 2),
        ("[/7=9@200]", 4),
        ("[{/0|/10}{/8|}=0]", 6),
        ("[=10]", 2),
        ("p256", 1),
        ("p4294967296", 1),
        ("p18446744073709551616", 1),
    ];
    for (text, place) in places {
        assert_eq!(refused(text), (31, place), "{text:?}");
    }
    assert_eq!(refused(format!("p{}", "9".repeat(1023))), (31, 1));
    assert_eq!(refused(format!("!n1{}", "0".repeat(400))), (31, 2));
    assert_eq!(refused("(p32&"), (30, 5));
    assert_eq!(refused("(p32&p0"), (30, 7));
    assert_eq!(refused("p32 "), (30, 3));
}

#[test]
fn the_longest_text() {
    let nots = |length: usize| format!("{}p0", "!".repeat(length - 2));
    assert_eq!(refused("!".repeat(1024)), (30, 1024));
    assert_eq!(refused("!".repeat(1025)), (30, 0));
    assert_eq!(refused(nots(1024)), (32, 0));
    assert_eq!(refused(nots(1025)), (30, 0));
    assert_eq!(refused([0xff; 1025]), (30, 0));
    assert_eq!(refused("p0".repeat(600)), (30, 0));
    let row = format!("[{}=0]", "/1".repeat(510));
    assert_eq!((row.len(), refused(&row)), (1024, (32, 0)));
    let both = |depth: usize| (0..depth).fold("p31".to_string(), |part, _| format!("({part}&{part})"));
    let whole = |nots: usize| format!("({}&({}&({}&{}p31)))", both(7), both(5), both(3), "!".repeat(nots));
    assert_eq!((whole(13).len(), entries(&whole(13))), (1024, 24));
    assert_eq!((whole(14).len(), refused(whole(14))), (1025, (30, 0)));
}

#[test]
fn the_most_entries() {
    let nots = |entries: usize| format!("{}p0", "!".repeat(entries - 1));
    assert_eq!(entries(&nots(255)), 255);
    assert_eq!(refused(nots(256)), (32, 0));
    assert_eq!(refused(nots(257)), (32, 0));
    let steps = |entries: usize| format!("[{}=0]", "/0".repeat(entries - 1));
    assert_eq!(entries(&steps(255)), 255);
    assert_eq!(refused(steps(256)), (32, 0));
    assert_eq!(type_pattern(nots(256).as_bytes(), 5000).map_err(|refusal| refusal.number), Err(32));
}

#[test]
fn the_destination() {
    for text in ["p0", "([/0=0/1]&[/0#0/1])", &format!("{}p0", "!".repeat(254))] {
        let file = type_pattern(text.as_bytes(), LONGEST).expect(text);
        let length = file.len();
        for room in [length, length + 1, usize::MAX] {
            assert_eq!(type_pattern(text.as_bytes(), room).as_ref(), Ok(&file));
        }
        for room in [length - 1, 6, 1, 0] {
            let refusal = type_pattern(text.as_bytes(), room).expect_err(text);
            assert_eq!((refusal.number, refusal.place), (32, 0));
        }
    }
    let first = |text: &str| type_pattern(text.as_bytes(), 0).map_err(|refusal| refusal.number);
    assert_eq!([first("p"), first("p32"), first("p0")], [Err(30), Err(31), Err(32)]);
}

/// A letter is a part of the grammar that is still to come, N node, R row, D number, E further digits; any other
/// byte stands for itself.
fn productions(part: u8) -> &'static [&'static str] {
    match part {
        b'N' => &["pD", "nD", "!N", "(N&N)", "(N|N)", "<D>N", "[R=DR]", "[R#DR]"],
        b'R' => &["", "/DR", "@DR", "?NR", "{R|R}R"],
        b'D' => &["0", "1E", "2E", "3E", "4E", "5E", "6E", "7E", "8E", "9E"],
        b'E' => &["", "0E", "1E", "2E", "3E", "4E", "5E", "6E", "7E", "8E", "9E"],
        _ => &[],
    }
}

/// What may be still to come behind this byte, if this was.
fn behind(byte: u8, to_come: &str) -> Vec<String> {
    let Some(&part) = to_come.as_bytes().first() else { return Vec::new() };
    if !matches!(part, b'N' | b'R' | b'D' | b'E') {
        return if part == byte { vec![to_come[1..].to_string()] } else { Vec::new() };
    }
    let expanded = productions(part).iter().map(|production| format!("{production}{}", &to_come[1..]));
    expanded.flat_map(|expanded| behind(byte, &expanded)).collect()
}

/// Whether nothing need come any more.
fn may_end(to_come: &str) -> bool {
    to_come.bytes().all(|part| productions(part).contains(&""))
}

/// The place of refusal 30 by the grammar alone, all ways of deriving the text being kept.
fn first_stray(text: &[u8]) -> Option<usize> {
    let mut ways = vec!["N".to_string()];
    for (place, &byte) in text.iter().enumerate() {
        ways = ways.iter().flat_map(|to_come| behind(byte, to_come)).collect();
        ways.dedup();
        if ways.is_empty() {
            return Some(place);
        }
    }
    (!ways.iter().any(|to_come| may_end(to_come))).then_some(text.len())
}

/// Checks whether and where 30 is given.
fn check_place(text: &[u8]) {
    let place = type_pattern(text, LONGEST).err().filter(|refusal| refusal.number == 30);
    let said = String::from_utf8_lossy(text);
    assert_eq!(place.map(|refusal| refusal.place.into()), first_stray(text), "{said}");
}

#[test]
fn places_of_all_short_texts() {
    let bytes = b"p!(&|)<>[]=/?{}01";
    for length in 0..=4 {
        for mut number in 0..bytes.len().pow(length) {
            let mut text = Vec::new();
            for _ in 0..length {
                text.push(bytes[number % bytes.len()]);
                number /= bytes.len();
            }
            check_place(&text);
        }
    }
}

#[test]
fn places_in_damaged_texts() {
    let bytes = b"pn!(&|)<>[]=#/@?{}0123456789^. ";
    for number in 0..4000 {
        let mut random = Random::new(7, number);
        let mut text = texts::node(&mut random, 4).into_bytes();
        text.truncate(300);
        let place = random.below(text.len());
        match random.below(4) {
            0 => text[place] = random.pick(bytes),
            1 => text.insert(place, random.pick(bytes)),
            2 => text.truncate(place),
            _ => drop(text.remove(place)),
        }
        check_place(&text);
    }
}
