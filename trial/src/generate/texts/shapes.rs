//! Deep, wide and long texts of the grammar.

use super::small;
use oracle::random::Random;
use oracle::typed::MAX_TEXT;

/// A text of one shape, as a rule one that fits 1,024 bytes: many of the same in one another or in a row.
pub fn shaped(random: &mut Random) -> Vec<u8> {
    let times = match random.below(4) {
        0 => random.between(1, 340),
        1 => random.pick(&[84, 85, 127, 128, 253, 254, 255, 256]),
        _ => random.between(1, 30),
    };
    let repeated = |part: &str| part.repeat(times);
    let text = match random.below(16) {
        0 => repeated("!") + "p0",
        1 => repeated("<1>") + "n0",
        2 => repeated("(") + "p0" + &repeated("&p1)"),
        3 => repeated("(p1|") + "n1" + &repeated(")"),
        4 => format!("[{}=0{}]", repeated("{"), repeated("|}")),
        5 => format!("[{}#1{}]", repeated("{|"), repeated("}")),
        6 => format!("[{}=2]", repeated("{/0|/1}")),
        7 => format!("[=3{}]", repeated("{|}")),
        8 => format!("[{}=0{}]", repeated("{|/0}"), repeated("{@0|}")),
        9 => repeated("[?") + "p0" + &repeated("=0]"),
        10 => tests_in_a_row(random, times.min(80)),
        11 => format!("[{}=0{}]", repeated("/0"), "/0".repeat(times / 2)),
        12 => all_names(random),
        13 => return brace_before_a_row(random),
        _ => return many_entries(random, times),
    };
    text.into_bytes()
}

/// A row of tests, with steps among them, of nodes that repeat and of nodes that don't.
fn tests_in_a_row(random: &mut Random, times: usize) -> String {
    let mut row = String::new();
    for _ in 0..times {
        row += random.pick(&["?p0", "?<0>p1", "/1", "?(p0&n2)", "@3", "?[/0=0]", "{?p2|/3}", "?!p0"]);
        if random.once_in(4) {
            row += &format!("?p{}", random.below(32));
        }
    }
    format!("[{row}={}/1]", random.below(4))
}

/// All 128 names, each once: 255 entries, or one more; or each in a jump: 129 entries.
fn all_names(random: &mut Random) -> String {
    let one_more = if random.once_in(2) { "!" } else { "" };
    if random.once_in(4) {
        let jumps: Vec<String> = (0..128).map(|name| format!("@{name}")).collect();
        return format!("[{}=0]", jumps.concat());
    }
    let names: Vec<String> = (0..127).map(|name| format!("(n{name}|")).collect();
    format!("{one_more}{}n127{}", names.concat(), ")".repeat(127))
}

/// A comparison of braces of small paths, each with something behind it.
fn brace_before_a_row(random: &mut Random) -> Vec<u8> {
    let mut text = b"[".to_vec();
    for _ in 0..random.between(1, 4) {
        text.push(b'{');
        path(random, &mut text);
        text.push(b'|');
        path(random, &mut text);
        text.push(b'}');
        path(random, &mut text);
    }
    text.extend(random.pick(&[b"=0", b"#3"]));
    path(random, &mut text);
    text.push(b']');
    text
}

/// Writes a path of few parts, or none.
fn path(random: &mut Random, text: &mut Vec<u8>) {
    for _ in 0..random.below(3) {
        text.extend(random.pick(&[&b"/0"[..], b"/1", b"@0", b"?p0", b"?!n1", b"{|/2}", b"{/0|}/1"]));
    }
}

/// Nots before a text, so many that there are 255 entries in all, or one more or less; or so many as the times say.
fn many_entries(random: &mut Random, times: usize) -> Vec<u8> {
    let text = small(random);
    let entries = oracle::typed::type_pattern(&text, usize::MAX).map_or(1, |file| (file.len() - 6) / 4);
    let nots = if random.once_in(4) { times } else { random.between(254, 256) - entries };
    [&vec![b'!'; nots][..], &text].concat()
}

/// A text of the grammar of just so many bytes, two at least, and of few entries.
pub fn exactly(length: usize) -> Vec<u8> {
    if length < 7 {
        let leaf = if length == 2 { "p0" } else { "p10" };
        return ("!".repeat(length - leaf.len()) + leaf).into_bytes();
    }
    let first = (length - 3) / 2;
    [b"(", &exactly(first)[..], b"&", &exactly(length - 3 - first), b")"].concat()
}

/// A text of 1,024 bytes or one more, now and then with a number out of range; or of one byte all over, which no text of
/// the grammar is, as long or longer than 16 bits can tell.
pub fn long(random: &mut Random) -> Vec<u8> {
    if random.once_in(4) {
        let length = random.pick(&[MAX_TEXT, MAX_TEXT, MAX_TEXT + 1, 65_536 + 2, 65_536 + MAX_TEXT]);
        return vec![random.pick(b"!!((0\n\0"); length];
    }
    let length =
        if random.once_in(8) { random.between(900, 1300) } else { random.between(MAX_TEXT, MAX_TEXT + 1) };
    let mut text = match random.below(2) {
        0 => exactly(length),
        _ => [b"!", &exactly(length - 1)[..]].concat(),
    };
    let from = random.below(length);
    if random.once_in(4)
        && let Some(letter) = text[from..].windows(2).position(|pair| pair == b"p1")
    {
        text[from + letter + 1] = b'9';
    }
    text
}
