//! Typed patterns in the place of a pattern file: what `riser explain` and `riser plan` take, and what they say of a
//! text that is refused.

use crate::common::directory::Directory;
use crate::common::tool::{check_failure, check_success, printed, run, run_fed};
use crate::files::{ENTRIES_A, ENTRIES_G, model_g, model_line, pattern, tableau_line};
use oracle::explain::explain;
use std::ffi::OsStr;
use std::fs;
use std::os::unix::ffi::OsStrExt;
use std::process::Output;

const TEXT_A: &str = "(<0>p0&!<0>p0)";
const TEXT_G: &str = "([/0=0/1]&[/0#0/1])";

fn run_explain(arguments: &[&OsStr]) -> Output {
    run(&[&[OsStr::new("explain")], arguments].concat())
}

fn run_plan(arguments: &[&OsStr]) -> Output {
    run(&[&[OsStr::new("plan"), OsStr::new("--over")], arguments].concat())
}

#[test]
fn explain_takes_a_text_from_anywhere() {
    let directory = Directory::new("typed-explain");
    let proposal = directory.file("proposal.bin", &model_g());
    let explained = explain(&pattern(&ENTRIES_G), &model_g()).to_string();
    let said = explained.trim_end();
    let [e, text, from, input] = ["-e", TEXT_G, "--text", "-"].map(OsStr::new);
    check_success(&run_explain(&[e, text, proposal.as_ref()]), said);
    check_success(&run_explain(&[proposal.as_ref(), e, text]), said);
    for ending in ["", "\n"] {
        let bytes = format!("{TEXT_G}{ending}").into_bytes();
        let file = directory.file("pattern.txt", &bytes);
        check_success(&run_explain(&[from, file.as_ref(), proposal.as_ref()]), said);
        check_success(&run_fed(&[OsStr::new("explain"), from, input, proposal.as_ref()], &bytes), said);
    }
}

/// Only one line feed at the end is the editor's, and a file is no text unless it is said to be.
#[test]
fn other_endings_are_refused() {
    let directory = Directory::new("typed-endings");
    let proposal = directory.file("proposal.bin", &model_g());
    for (text, place) in [("p0\n\n", 2), ("p0\r\n", 2), ("\n", 0), ("", 0), ("p0 \n", 2)] {
        let file = directory.file("pattern.txt", text.as_bytes());
        let output = run_explain(&[OsStr::new("--text"), file.as_ref(), proposal.as_ref()]);
        let said = printed(&output.stdout);
        assert!(said.starts_with(&format!("Finding: refused 30 {place}, byte {place}: ")), "{said}");
        assert_eq!(output.status.code(), Some(2));
    }
    let typed = run_explain(&[OsStr::new("-e"), OsStr::new("p0\n"), proposal.as_ref()]);
    assert!(printed(&typed.stdout).starts_with("Finding: refused 30 2, "));
    let file = directory.file("pattern.txt", b"p0");
    let untold = run_explain(&[file.as_ref(), proposal.as_ref()]);
    assert!(printed(&untold.stdout).starts_with("Finding: refused 1 0: "));
}

#[test]
fn plan_takes_a_text_from_anywhere() {
    let directory = Directory::new("typed-plan");
    let proposal = directory.0.join("proposal.bin");
    let [e, text, from, input, o] = ["-e", TEXT_A, "--text", "-", "-o"].map(OsStr::new);
    assert_eq!(run_plan(&[e, text, o, proposal.as_ref()]).status.code(), Some(0));
    let tableau = fs::read(&proposal).expect("a proposal");
    assert_eq!(tableau_line(&pattern(&ENTRIES_A), &tableau), "closed 3 1 0 4");
    let file = directory.file("pattern.txt", b"p7\n");
    assert_eq!(run_plan(&[from, file.as_ref(), o, proposal.as_ref()]).status.code(), Some(0));
    let model = fs::read(&proposal).expect("a proposal");
    assert_eq!(model_line(&pattern(&[[1, 7, 0, 0]]), &model), "met 0 1");
    let seeded = [OsStr::new("plan"), OsStr::new("--over"), from, input, o, proposal.as_ref()];
    assert_eq!(run_fed(&seeded, b"p7").status.code(), Some(0));
}

#[test]
fn plan_says_where_a_text_is_refused_and_writes_nothing() {
    let directory = Directory::new("typed-refused");
    let proposal = directory.file("proposal.bin", b"old");
    let message = "riser plan: the text: refused 30 5, byte 5: the text ends there, which no typed pattern does.\n\
                   Wanted there: p n ! ( < or [.\n  (p32&\n       ^";
    let output = run_plan(&[OsStr::new("-e"), OsStr::new("(p32&"), OsStr::new("-o"), proposal.as_ref()]);
    check_failure(&output, 2, message);
    let file = directory.file("pattern.txt", b"[=9]\n");
    let named =
        format!("riser plan: {}: refused 31 2, byte 2: the number is out of range.\n", file.display());
    let output = run_plan(&[OsStr::new("--text"), file.as_ref(), OsStr::new("-o"), proposal.as_ref()]);
    let said = "The last property is 31, the last name 127, axis 7, channel 3.\n  [=9]\n    ^";
    check_failure(&output, 2, &format!("{named}{said}"));
    let input = ["plan", "--text", "-", "--over", "-o"].map(OsStr::new);
    let output = run_fed(&[&input[..], &[proposal.as_ref()]].concat(), b"");
    let message = printed(&output.stderr);
    assert!(message.starts_with("riser plan: standard input: refused 30 0, byte 0: "), "{message}");
    assert_eq!(fs::read(&proposal).expect("the old file"), b"old");
}

#[test]
fn the_file_of_a_text_is_no_target() {
    let directory = Directory::new("typed-target");
    let file = directory.file("pattern.txt", b"p0\n");
    let output = run_plan(&[OsStr::new("--text"), file.as_ref(), OsStr::new("-o"), file.as_ref()]);
    check_failure(
        &output,
        3,
        &format!("riser plan: {}: can't be written: it is the pattern", file.display()),
    );
    assert_eq!(fs::read(&file).expect("the text"), b"p0\n");
}

/// A file without an end is read as far as shows that it is too long.
#[test]
fn long_texts() {
    let directory = Directory::new("typed-long");
    let proposal = directory.file("proposal.bin", &model_g());
    let explained = |file: &OsStr| {
        let output = run_explain(&[OsStr::new("--text"), file, proposal.as_ref()]);
        printed(&output.stdout)
    };
    let refused = "Finding: refused 30 0: the text has over 1,024 bytes.\n";
    assert_eq!(explained(OsStr::new("/dev/zero")), refused);
    let nots = |length: usize, ending: &str| format!("{}{ending}", "!".repeat(length)).into_bytes();
    for (text, said) in [
        (nots(1024, ""), "Finding: refused 30 1024, "),
        (nots(1024, "\n"), "Finding: refused 30 1024, "),
        (nots(1025, ""), refused),
        (nots(1025, "\n"), refused),
        (nots(1024, "\n\n"), refused),
        (nots(100_000, ""), refused),
    ] {
        let explained = explained(directory.file("pattern.txt", &text).as_ref());
        assert!(explained.starts_with(said), "{}: {explained}", text.len());
    }
}

/// An argument need not be text.
#[test]
fn any_bytes_are_taken() {
    let directory = Directory::new("typed-bytes");
    let proposal = directory.file("proposal.bin", &model_g());
    let output = run_explain(&[OsStr::new("-e"), OsStr::from_bytes(b"p\xc3\x28"), proposal.as_ref()]);
    let said = String::from_utf8(output.stdout).expect("text");
    assert!(said.ends_with("Wanted there: a digit.\n  p\\xc3(\n   ^\n"), "{said}");
}
