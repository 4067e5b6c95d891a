//! `riser explain`: what it prints, and the page that it writes.

use crate::common::directory::Directory;
use crate::common::tool::{check_failure, check_said, check_usage, printed, run};
use crate::files::{ENTRIES_A, ENTRIES_G, STEPS_A, model, model_g, pattern, plain, tableau};
use oracle::explain::explain;
use oracle::explain::wording::count;
use std::ffi::OsStr;
use std::fs;
use std::path::Path;
use std::process::Output;

/// Explains two files, with options.
fn run_explain(options: &[&OsStr], pattern: &Path, proposal: &Path) -> Output {
    run(&[&[OsStr::new("explain")], options, &[pattern.as_ref(), proposal.as_ref()]].concat())
}

/// Explains two files as a page.
fn run_html(page: &Path, pattern: &Path, proposal: &Path) -> Output {
    run_explain(&[OsStr::new("--html"), page.as_ref()], pattern, proposal)
}

#[test]
fn prints_the_explanation_with_the_status_of_the_finding() {
    let directory = Directory::new("explain-prints");
    let (a, g) = (pattern(&ENTRIES_A), pattern(&ENTRIES_G));
    let bad = model(&[plain(0)], &[], &[[0, 8, 0]]);
    for (pattern, proposal, status) in [
        (&a, tableau(0, &STEPS_A), 0),
        (&g, model_g(), 0),
        (&a, model_g(), 1),
        (&a, bad, 2),
        (&a, Vec::new(), 2),
    ] {
        let files = [directory.file("pattern.bin", pattern), directory.file("proposal.bin", &proposal)];
        let explained = explain(pattern, &proposal).to_string();
        check_said(&run_explain(&[], &files[0], &files[1]), status, explained.trim_end());
    }
}

#[test]
fn writes_a_page_and_prints_the_finding() {
    let directory = Directory::new("explain-page");
    let (a, block) = (pattern(&ENTRIES_A), model_g());
    let files = [directory.file("pattern.bin", &a), directory.file("block.bin", &block)];
    let page = directory.0.join("page.html");
    let output = run_html(&page, &files[0], &files[1]);
    let html = fs::read_to_string(&page).expect("a page");
    let said = format!(
        "unmet\nThe root holds at no node of this model.\n{}: the page, {}",
        page.display(),
        count(html.len(), "byte", "bytes")
    );
    check_said(&output, 1, &said);
    assert!(html.starts_with("<!DOCTYPE html>\n") && html.ends_with("</html>\n"));
    assert_eq!(directory.names(), ["block.bin", "page.html", "pattern.bin"]);
}

#[test]
fn a_page_that_is_there_is_replaced_only_if_asked() {
    let directory = Directory::new("explain-over");
    let files =
        [directory.file("pattern.bin", &pattern(&ENTRIES_G)), directory.file("block.bin", &model_g())];
    let page = directory.file("page.html", b"kept");
    let message = format!("riser explain: {}: it is there already; --over replaces it", page.display());
    check_failure(&run_html(&page, &files[0], &files[1]), 3, &message);
    assert_eq!(fs::read(&page).expect("the page"), b"kept");
    let over = [OsStr::new("--over"), OsStr::new("--html"), page.as_ref()];
    assert_eq!(run_explain(&over, &files[0], &files[1]).status.code(), Some(0));
    assert!(fs::read(&page).expect("the page").starts_with(b"<!DOCTYPE html>"));
    for (file, what) in files.iter().zip(["the pattern", "the proposal"]) {
        let before = fs::read(file).expect("a file");
        let over = [OsStr::new("--over"), OsStr::new("--html"), file.as_ref()];
        let message = format!("riser explain: {}: can't be written: it is {what}", file.display());
        check_failure(&run_explain(&over, &files[0], &files[1]), 3, &message);
        assert_eq!(fs::read(file).expect("a file"), before);
    }
}

#[test]
fn a_page_that_cannot_be_written_is_named() {
    let directory = Directory::new("explain-unwritable");
    let files =
        [directory.file("pattern.bin", &pattern(&ENTRIES_G)), directory.file("block.bin", &model_g())];
    let inside = directory.0.join("missing").join("page.html");
    let output = run_html(&inside, &files[0], &files[1]);
    assert_eq!(output.status.code(), Some(3));
    let said = printed(&output.stderr);
    assert!(
        said.starts_with(&format!("riser explain: {}: can't be written: No such file", inside.display())),
        "{said}"
    );
    let said = printed(&run_html(&directory.0, &files[0], &files[1]).stderr);
    assert!(said.ends_with(": can't be written: it isn't a regular file\n"), "{said}");
    assert_eq!(directory.names(), ["block.bin", "pattern.bin"]);
}

#[test]
fn bad_arguments_give_the_usage() {
    let usage = "riser explain [--html FILE [--over]]\n         (PATTERN | -e TEXT | --text FILE) PROPOSAL";
    let directory = Directory::new("explain-usage");
    let block = directory.file("block.bin", &model_g());
    let block = block.to_str().expect("text");
    for (words, why) in [
        (&[][..], "no pattern is given"),
        (&["a"], "no proposal is given"),
        (&["-e", "p0"], "no proposal is given"),
        (&["a", "b", "c"], "there is a file too many: c"),
        (&["a", "b", "--html"], "--html wants a file behind it"),
        (&["-e", "p0", block, "--over"], "--over goes with --html"),
        (&["--htm", "a", "b", "c"], "there is no option '--htm': did you mean '--html'?"),
    ] {
        check_usage(&run(&[&["explain"], words].concat()), &format!("riser explain: {why}"), usage);
    }
}
