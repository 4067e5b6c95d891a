//! Texts, and the cases of typing a pattern. The longest have 1,024 bytes each.

use crate::benchmark::case::Case;
use crate::generate::texts::exactly;

pub fn cases() -> Vec<Case> {
    let nots = |number: usize, node: &str| "!".repeat(number) + node;
    vec![
        Case::typing("typical, 40 bytes", b"(<0>p3&![/1?n7{/2|@12}/0=2@12{|/1}?!p3])"),
        Case::typing("1,024 bytes, 63 braces in a row", row_of_braces().as_bytes()),
        Case::typing("1,024 bytes, 203 braces deep", deep_braces().as_bytes()),
        Case::typing("1,024 bytes, 204 parentheses deep", deep_parentheses().as_bytes()),
        Case::typing("1,024 bytes, 124 tests in a row", row_of_tests().as_bytes()),
        Case::typing("1,024 bytes, few entries", &exactly(1024)),
        Case::typing("all 128 names, 255 entries", all_names().as_bytes()),
        Case::typing("339 braces in a row, too many", format!("[{}=0]", "{|}".repeat(339)).as_bytes()),
        Case::typing("1,022 nots, too many", nots(1022, "p0").as_bytes()),
        Case::typing("1,024 nots, no end", nots(1024, "").as_bytes()),
        Case::typing("a number of 1,023 digits", format!("p{}", "9".repeat(1023)).as_bytes()),
    ]
}

/// 255 entries: the right row is the end of the left one.
fn row_of_braces() -> String {
    let braces = |number: usize| "{?n100|?n101}/7".repeat(number);
    format!("[{}=0{}]", braces(63), braces(5))
}

/// The right row is the innermost brace of the left one.
fn deep_braces() -> String {
    format!("[{}{}=0{{|/0}}]", "{".repeat(203), "|/0}".repeat(203))
}

fn deep_parentheses() -> String {
    format!("!!{}p0{}", "(".repeat(204), "&p1)".repeat(204))
}

/// 251 entries, of which 124 are tests of two nodes in turn, with steps between them: the right row is the end of the
/// left one.
fn row_of_tests() -> String {
    let tests = |number: usize| "?p10/7?n10/7".repeat(number);
    format!("[{}=0{}]", tests(62), tests(23))
}

fn all_names() -> String {
    let names: String = (0..127).map(|name| format!("(n{name}|")).collect();
    format!("{names}n127{}", ")".repeat(127))
}
