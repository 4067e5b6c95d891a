//! What `riser` says of itself, and of words that it doesn't understand.

use crate::common::directory::Directory;
use crate::common::tool::{RISER, check_failure, check_success, printed, run};
use crate::files::{ENTRIES_G, model_g, pattern};
use std::fs::File;
use std::path::Path;
use std::process::Command;

/// The width of a terminal.
const COLUMNS: usize = 80;

const COMMANDS: [&str; 5] = ["judge", "explain", "type", "plan", "order"];

/// What is printed with status 0 and without a message.
fn said(words: &[&str]) -> String {
    let output = run(words);
    assert_eq!((output.status.code(), printed(&output.stderr)), (Some(0), String::new()), "{words:?}");
    printed(&output.stdout)
}

#[test]
fn the_overview_lists_the_commands_and_statuses() {
    let overview = said(&["help"]);
    for command in COMMANDS {
        assert!(overview.contains(&format!("\n  {command} ")), "{overview}");
    }
    assert!(overview.contains("\nExit status: 0 met or closed, "), "{overview}");
    assert!(overview.lines().all(|line| line.len() <= COLUMNS), "{overview}");
    for words in [&["--help"][..], &["-h"], &["help", "help"], &["help", "--help"]] {
        assert_eq!(said(words), overview);
    }
}

#[test]
fn each_command_has_a_help_with_an_example() {
    for command in COMMANDS {
        let help = said(&["help", command]);
        assert!(help.starts_with(&format!("usage: riser {command} ")), "{help}");
        assert!(help.contains("Example"), "{help}");
        assert!(help.contains(&format!("\n  riser {command} ")), "{help}");
        assert!(help.contains("\nExit status: 0 met or closed, "), "{help}");
        assert!(help.lines().all(|line| line.len() <= COLUMNS), "{help}");
        for words in [[command, "--help"], [command, "-h"]] {
            assert_eq!(said(&words), help);
        }
        assert_eq!(said(&[command, "p0", "--help", "--no-such-option"]), help);
    }
}

#[test]
fn the_version_is_printed() {
    let version = format!("riser {}", env!("CARGO_PKG_VERSION"));
    check_success(&run(&["--version"]), &version);
    check_success(&run(&["-V"]), &version);
    let alone =
        "riser: the version is asked for alone\nusage: riser COMMAND ..\n`riser help` lists the commands.";
    check_failure(&run(&["--version", "x"]), 3, alone);
}

#[test]
fn a_mistyped_command_is_guessed() {
    let hint = "usage: riser COMMAND ..\n`riser help` lists the commands.";
    for (word, meant) in [
        ("jugde", "judge"),
        ("Judge", "judge"),
        ("judges", "judge"),
        ("typ", "type"),
        ("explian", "explain"),
        ("paln", "plan"),
        ("oder", "order"),
        ("hlep", "help"),
        ("HELP", "help"),
        ("version", "--version"),
    ] {
        let message = format!("riser: there is no command '{word}': did you mean '{meant}'?\n{hint}");
        check_failure(&run(&[word]), 3, &message);
        check_failure(&run(&["help", word]), 3, &message);
    }
    for word in ["xyzzy", "pattern.bin", ""] {
        check_failure(&run(&[word]), 3, &format!("riser: there is no command '{word}'\n{hint}"));
    }
    check_failure(&run(&[""; 0]), 3, &format!("riser: no command is given\n{hint}"));
    check_failure(&run(&["help", "judge", "plan"]), 3, &format!("riser: help is of one command\n{hint}"));
}

#[test]
fn a_mistyped_option_is_guessed() {
    for (words, why) in [
        (
            &["plan", "--bugdet", "5", "a"][..],
            "riser plan: there is no option '--bugdet': did you mean '--budget'?",
        ),
        (&["type", "--ovr", "p0"], "riser type: there is no option '--ovr': did you mean '--over'?"),
        (&["judge", "--quickly", "a", "b"], "riser judge: there is no option '--quickly'"),
    ] {
        let output = run(words);
        let message = printed(&output.stderr);
        assert!(message.starts_with(&format!("{why}\nusage: riser ")), "{message}");
        assert_eq!(output.status.code(), Some(3));
    }
}

/// A message that nobody takes changes nothing.
#[test]
fn a_message_that_cannot_be_written_leaves_the_status() {
    for words in [&["jugde"][..], &["judge", "missing", "missing"], &["type", "(p0"]] {
        let full = File::create("/dev/full").expect("a full device");
        let status = Command::new(RISER).args(words).stderr(full).status().expect("the tool runs");
        assert_eq!(status.code(), Some(if words[0] == "type" { 2 } else { 3 }), "{words:?}");
    }
}

/// What a terminal may not be sent is escaped.
#[test]
fn names_are_shown_as_text() {
    for (words, said) in [
        (&["judge", "no\u{1b}[31m", "b"][..], "riser judge: 'no\\u{1b}[31m': can't be read: "),
        (&["judge", "", "b"], "riser judge: '': can't be read: "),
        (&["judge", "a", "b", "c\n"], "riser judge: there is a file too many: 'c\\n'\n"),
        (&["ju\tdge"], "riser: there is no command 'ju\\tdge': did you mean 'judge'?\n"),
    ] {
        let output = run(words);
        let message = printed(&output.stderr);
        assert!(message.starts_with(said), "{message}");
        assert_eq!(output.status.code(), Some(3));
    }
}

#[test]
fn standard_input_and_output_are_no_files() {
    for (words, why) in [
        (&["judge", "a", "-"][..], "'-' is standard input, and stands behind --text alone"),
        (&["type", "-o", "-", "p0"], "-o wants a file behind it, not standard output"),
        (&["explain", "--html=-", "a", "b"], "--html wants a file behind it, not standard output"),
    ] {
        let output = run(words);
        let message = printed(&output.stderr);
        assert!(message.starts_with(&format!("riser {}: {why}\nusage: ", words[0])), "{message}");
        assert_eq!(output.status.code(), Some(3));
    }
}

/// A word that an option takes asks for nothing.
#[test]
fn the_value_of_an_option_is_no_option() {
    for text in ["-h", "--help", "--version"] {
        let output = run(&["judge", "-e", text, "missing.bin"]);
        assert!(printed(&output.stdout).starts_with("refused 30 0\n"), "{output:?}");
        assert_eq!(output.status.code(), Some(2));
    }
    let output = run(&["judge", "--", "--help", "missing.bin"]);
    assert!(printed(&output.stderr).starts_with("riser judge: --help: can't be read: "), "{output:?}");
}

/// The examples, run in a folder with the files that they speak of.
#[test]
fn the_examples_do_what_they_say() {
    let directory = Directory::new("help-examples");
    directory.file("pattern.bin", &pattern(&ENTRIES_G));
    directory.file("block.bin", &model_g());
    directory.file("old-block.bin", &model_g());
    let riser = Path::new(RISER).parent().expect("a folder").display().to_string();
    let path = format!("{riser}:{}", std::env::var("PATH").unwrap_or_default());
    for command in ["judge", "plan", "explain", "type", "order"] {
        let help = said(&["help", command]);
        let examples = help.lines().filter_map(|line| line.strip_prefix("  riser "));
        for example in examples {
            let over = if matches!(command, "type" | "order") { " --over" } else { "" };
            let mut shell = Command::new("sh");
            shell
                .args(["-c", &format!("riser {example}{over}")])
                .env("PATH", &path)
                .current_dir(&directory.0);
            let output = shell.output().expect("a shell");
            assert_eq!(
                (output.status.code(), printed(&output.stderr)),
                (Some(0), String::new()),
                "{example}"
            );
        }
    }
    let written = ["block.bin", "old-block.bin", "page.html", "pattern.bin", "tableau.bin"];
    assert_eq!(directory.names(), written);
}
