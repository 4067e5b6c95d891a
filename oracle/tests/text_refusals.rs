//! What is said of a text that is refused.

use oracle::explain::refusal;
use oracle::pattern::LONGEST;
use oracle::typed::type_pattern;

/// What is said below the finding.
fn detail(text: &[u8]) -> String {
    let refused = type_pattern(text, LONGEST).expect_err("a text that is refused");
    refusal::of_text(text, refused).detail + "\n"
}

#[test]
fn the_mark_stands_under_the_place() {
    assert_eq!(detail(b"(p0&p0"), "Wanted there: ).\n  (p0&p0\n        ^\n");
    assert_eq!(detail(b"(p0p0)"), "Wanted there: & or |.\n  (p0p0)\n     ^\n");
    assert_eq!(detail(b""), "Wanted there: p n ! ( < or [.\n  \n  ^\n");
    assert_eq!(detail(b"p"), "Wanted there: a digit.\n  p\n   ^\n");
    assert_eq!(detail(b"p00"), "Wanted there: the end.\n  p00\n    ^\n");
    assert_eq!(
        detail(b"p0 & p1"),
        "Wanted there: the end. A typed pattern has no spaces.\n  p0 & p1\n    ^\n"
    );
    assert_eq!(detail(b"p1x"), "Wanted there: a further digit, or the end.\n  p1x\n    ^\n");
    assert_eq!(detail(b"[/10x"), "Wanted there: a further digit, or / @ ? { = or #.\n  [/10x\n      ^\n");
    assert_eq!(
        detail(b"[{/0|/1|"),
        "Wanted there: a further digit, or / @ ? { or }.\n  [{/0|/1|\n         ^\n"
    );
    assert_eq!(detail(b"\xff\0\n\"x"), "Wanted there: p n ! ( < or [.\n  \\xff\\x00\\n\"x\n  ^\n");
    assert_eq!(detail(b"(p0&!\t\xe9)"), "Wanted there: p n ! ( < or [.\n  (p0&!\\t\\xe9)\n       ^\n");
    let many = format!("{}p0", "!".repeat(300));
    assert_eq!(detail(many.as_bytes()), "The text makes 301 entries.\n");
}

/// Of a long text the part around the place is shown.
#[test]
fn the_mark_in_a_long_text() {
    let shown = |before: usize, behind: usize| {
        let text = format!("{}x{}", "!".repeat(before), "?".repeat(behind));
        let said = detail(text.as_bytes());
        let lines: Vec<String> = said.lines().skip(1).map(str::to_owned).collect();
        assert_eq!(lines[0].find('x'), lines[1].find('^'), "{said}");
        lines[0].clone()
    };
    assert_eq!(shown(60, 9), format!("  {}x{}", "!".repeat(60), "?".repeat(9)));
    assert_eq!(shown(60, 10), format!("  ..{}x{}", "!".repeat(40), "?".repeat(10)));
    assert_eq!(shown(1000, 23), format!("  ..{}x{}", "!".repeat(40), "?".repeat(23)));
    assert_eq!(shown(900, 100), format!("  ..{}x{}..", "!".repeat(40), "?".repeat(23)));
    assert_eq!(shown(0, 1023), format!("  x{}..", "?".repeat(23)));
    let unseen = detail(format!("{}\u{1}", "!".repeat(80)).as_bytes());
    assert!(unseen.ends_with(&format!("  ..{}\\x01\n{}^\n", "!".repeat(40), " ".repeat(44))), "{unseen}");
}
