//! `riser` when standard output is closed or full.

use crate::common::directory::Directory;
use crate::common::output::{run_full, run_unread};
use crate::common::tool::RISER;
use crate::files::{ENTRIES_A, STEPS_A, pattern, tableau};
use std::process::Output;

/// Runs a command on reading A with either output. A closed pipe is no failure, a full output gives the status.
fn check(command: &str, options: &[&str], full_status: i32) {
    let directory = Directory::new(&format!("output-{command}"));
    let pattern = directory.file("pattern.bin", &pattern(&ENTRIES_A));
    let proposal = directory.file("proposal.bin", &tableau(0, &STEPS_A));
    let files = [&pattern, &proposal].map(|file| file.to_str().expect("text"));
    let words: Vec<&str> =
        [command, files[0]].into_iter().chain(options.iter().copied()).chain([files[1]]).collect();

    let unread = run_unread(RISER, &words);
    assert_eq!((unread.status.code(), unread.stderr), (Some(0), Vec::new()));

    let full = run_full(RISER, &words);
    let message = String::from_utf8_lossy(&full.stderr);
    assert_eq!(full.status.code(), Some(full_status), "{message}");
    assert!(message.starts_with(&format!("riser {command}: standard output: ")), "{message}");
}

#[test]
fn of_judge_and_explain() {
    check("judge", &[], 3);
    check("explain", &[], 3);
}

/// What is asked of the tool itself.
#[test]
fn of_help_and_version() {
    for words in [&["help"][..], &["help", "judge"], &["--version"]] {
        let unread = run_unread(RISER, words);
        assert_eq!((unread.status.code(), unread.stderr), (Some(0), Vec::new()));
        let full = run_full(RISER, words);
        let message = String::from_utf8_lossy(&full.stderr);
        assert_eq!(full.status.code(), Some(3), "{message}");
        assert!(message.starts_with("riser: standard output: "), "{message}");
    }
}

/// The page is there by then.
#[test]
fn of_a_page() {
    let directory = Directory::new("output-page");
    let files = [
        directory.file("pattern.bin", &pattern(&ENTRIES_A)),
        directory.file("proposal.bin", &tableau(0, &STEPS_A)),
        directory.0.join("page.html"),
    ];
    let [pattern, proposal, page] = files.each_ref().map(|file| file.to_str().expect("text"));
    let words = ["explain", "--over", "--html", page, pattern, proposal];
    for (run, said) in
        [(run_unread as fn(&str, &[&str]) -> Output, ""), (run_full, "riser explain: standard output: ")]
    {
        let output = run(RISER, &words);
        let message = String::from_utf8_lossy(&output.stderr);
        assert!(message.starts_with(said) && message.is_empty() == said.is_empty(), "{message}");
        assert_eq!((output.status.code(), files[2].exists()), (Some(0), true));
        std::fs::remove_file(&files[2]).expect("the page");
    }
}

/// `plan` has written the proposal by then.
#[test]
fn of_plan() {
    check("plan", &["--over", "-o"], 0);
}
