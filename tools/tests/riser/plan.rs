//! `riser plan`: what it writes and prints, and that a failure leaves files as they were.

use std::ffi::OsStr;
use std::fs::{self, OpenOptions, Permissions};
use std::os::unix::fs::{PermissionsExt, symlink};
use std::os::unix::net::UnixListener;
use std::path::Path;
use std::process::{Command, Output};
use std::time::{Duration, Instant};

use crate::common::directory::Directory;
use crate::common::tool::{RISER, check_success, check_usage, run};
use crate::files::{self, ENTRIES_A, ENTRIES_G, model_line, tableau_line};

/// What is said of reading A's tableau.
const CLOSED: &str = "closed 3 1 0 4\nEvery branch ends in a clash: no model meets the pattern.\n\
                      (The counts are steps, clashes, forks, and the most lines that a branch had at its clash.)";

/// What is said of a block of one node that meets a pattern.
const MET: &str = "met 0 1\nThe root holds at node 0 alone.\n\
                   (The numbers are the lowest node where it holds, and at how many nodes it does.)";

/// Plans into a file, with options.
fn plan(options: &[&str], pattern: &Path, proposal: &Path) -> Output {
    let words = ["plan"].into_iter().chain(options.iter().copied()).map(OsStr::new);
    run(&words.chain([pattern.as_os_str(), OsStr::new("-o"), proposal.as_os_str()]).collect::<Vec<_>>())
}

/// Checks that the tool fails with this status and that its message has all these parts.
fn check_parts(output: &Output, status: i32, parts: &[&str]) {
    let message = String::from_utf8_lossy(&output.stderr);
    assert_eq!(output.status.code(), Some(status), "{message}");
    assert!(output.stdout.is_empty());
    for part in parts {
        assert!(message.contains(part), "{part:?} isn't in {message:?}");
    }
}

#[test]
fn writes_a_tableau() {
    let directory = Directory::new("tableau");
    let pattern = directory.file("pattern.bin", &files::pattern(&ENTRIES_A));
    let proposal = directory.0.join("proposal.bin");
    let output = plan(&[], &pattern, &proposal);
    check_success(&output, &format!("{CLOSED}\n{}: tableau, 3 steps", proposal.display()));
    let tableau = fs::read(&proposal).expect("a proposal");
    assert_eq!(tableau_line(&files::pattern(&ENTRIES_A), &tableau), "closed 3 1 0 4");
    assert_eq!(directory.names(), ["pattern.bin", "proposal.bin"]);
}

#[test]
fn writes_a_model() {
    let directory = Directory::new("model");
    let pattern = directory.file("pattern.bin", &files::pattern(&ENTRIES_G));
    let proposal = directory.0.join("proposal.bin");
    let output = plan(&["--seed", "3", "--budget=1000"], &pattern, &proposal);
    assert_eq!(output.status.code(), Some(0));
    assert!(String::from_utf8_lossy(&output.stdout).starts_with("met 0 "));
    let model = fs::read(&proposal).expect("a proposal");
    assert!(model_line(&files::pattern(&ENTRIES_G), &model).starts_with("met "));
}

/// The root reaches neither name, so that no line of a tableau has them: they are listed as node 0.
#[test]
fn lists_the_names_of_the_pattern() {
    let directory = Directory::new("names");
    let bytes = files::pattern(&[[2, 6, 0, 0], [9, 127, 255, 0], [1, 0, 0, 0]]);
    let pattern = directory.file("pattern.bin", &bytes);
    let proposal = directory.0.join("proposal.bin");
    check_success(&plan(&[], &pattern, &proposal), &format!("{MET}\n{}: block, 1 node", proposal.display()));
    let model = fs::read(&proposal).expect("a proposal");
    assert!(model.ends_with(&[6, 0, 127, 0]), "{model:?}");
    assert_eq!(model_line(&bytes, &model), "met 0 1");
}

#[test]
fn the_file_is_proposal_bin_unless_another_is_named() {
    let directory = Directory::new("plan-unnamed");
    let output = Command::new(RISER).args(["plan", "-e", "p7"]).current_dir(&directory.0).output();
    check_success(&output.expect("the tool runs"), &format!("{MET}\nproposal.bin: block, 1 node"));
    assert_eq!(directory.names(), ["proposal.bin"]);
}

#[test]
fn bad_arguments_give_the_usage() {
    let usage =
        "riser plan [-o FILE] [--over] [--budget N] [--seed N]\n         (PATTERN | -e TEXT | --text FILE)";
    for (words, why) in [
        (&[][..], "no pattern is given"),
        (&["--seed", "1"], "no pattern is given"),
        (&["a", "b"], "there is a file too many: b"),
        (&["-e", "p0", "b"], "there is a file too many: b"),
        (&["--deep", "a"], "there is no option '--deep': did you mean '--seed'?"),
        (&["--budget", "many", "a"], "--budget wants a number behind it, not 'many'"),
        (&["--seed", "-1", "a"], "--seed wants a number behind it, not '-1'"),
        (&["--seed", "+1", "a"], "--seed wants a number behind it, not '+1'"),
        (&["--seed", "", "a"], "--seed wants a number behind it, not ''"),
        (&["--budget", "99999999999999999999", "a"], "the number behind --budget is too large"),
        (&["--over=1", "a"], "--over takes no value"),
        (&["--seed"], "--seed wants a number behind it"),
    ] {
        check_usage(&run(&[&["plan"], words].concat()), &format!("riser plan: {why}"), usage);
    }
}

#[test]
fn a_file_that_is_there_is_replaced_only_if_asked() {
    let directory = Directory::new("plan-over");
    let pattern = directory.file("pattern.bin", &files::pattern(&ENTRIES_A));
    let proposal = directory.file("proposal.bin", b"old");
    let message = format!("{}: it is there already; --over replaces it", proposal.display());
    check_parts(&plan(&[], &pattern, &proposal), 3, &[&message]);
    assert_eq!(fs::read(&proposal).expect("the old file"), b"old");
    assert_eq!(plan(&["--over"], &pattern, &proposal).status.code(), Some(0));
    assert!(fs::read(&proposal).expect("the new file").starts_with(b"TAB"));
}

#[test]
fn refused_pattern_is_named_with_the_reason() {
    let directory = Directory::new("refused");
    let pattern = directory.file("pattern.bin", &files::pattern(&[[1, 0, 0, 0], [3, 1, 0, 0]]));
    let proposal = directory.file("proposal.bin", b"old");
    let output = plan(&["--over"], &pattern, &proposal);
    let reason =
        "pattern.bin: refused 6 1, entry 1: a reference isn't an earlier entry of the wanted sort.\n";
    check_parts(&output, 2, &[reason]);
    assert_eq!(fs::read(&proposal).expect("the old file"), b"old");
}

#[test]
fn spent_budget_is_named() {
    let directory = Directory::new("budget");
    let pattern = directory.file("pattern.bin", &files::pattern(&ENTRIES_A));
    let proposal = directory.file("proposal.bin", b"old");
    let output = plan(&["--budget", "2", "--over"], &pattern, &proposal);
    check_parts(&output, 1, &["pattern.bin: nothing found within a budget of 2\n"]);
    assert_eq!(fs::read(&proposal).expect("the old file"), b"old");
}

#[test]
fn target_in_a_missing_directory_is_named() {
    let directory = Directory::new("nowhere");
    let pattern = directory.file("pattern.bin", &files::pattern(&ENTRIES_A));
    let inside_nothing = directory.0.join("nowhere").join("proposal.bin");
    check_parts(&plan(&[], &pattern, &inside_nothing), 3, &["proposal.bin", "can't be written"]);
    assert_eq!(directory.names(), ["pattern.bin"]);
}

#[test]
fn target_that_is_no_regular_file_is_left_alone() {
    let directory = Directory::new("irregular");
    let pattern = directory.file("pattern.bin", &files::pattern(&ENTRIES_A));
    let targets = ["directory", "link", "nowhere", "socket"].map(|name| directory.0.join(name));
    let [occupied, link, nowhere, socket] = &targets;
    fs::create_dir(occupied).expect("a directory");
    symlink(occupied, link).expect("a link");
    symlink("missing.bin", nowhere).expect("a link");
    let _listener = UnixListener::bind(socket).expect("a socket");
    for target in &targets {
        let before = fs::symlink_metadata(target).expect("a target").file_type();
        let why = if target == nowhere { "No such file" } else { "it isn't a regular file" };
        let said = format!("{}: can't be written: {why}", target.display());
        check_parts(&plan(&["--over"], &pattern, target), 3, &[&said]);
        assert_eq!(fs::symlink_metadata(target).expect("a target").file_type(), before);
    }
    assert_eq!(directory.names(), ["directory", "link", "nowhere", "pattern.bin", "socket"]);
}

#[test]
fn link_to_a_file_stays_and_the_file_is_written() {
    let directory = Directory::new("link");
    let pattern = directory.file("pattern.bin", &files::pattern(&ENTRIES_A));
    let (file, link) = (directory.file("file.bin", b"old"), directory.0.join("link.bin"));
    symlink("file.bin", &link).expect("a link");
    assert!(plan(&["--over"], &pattern, &link).status.success());
    assert!(link.is_symlink());
    assert!(fs::read(&file).expect("the file").starts_with(b"TAB"));
}

#[test]
fn pattern_is_no_target() {
    let directory = Directory::new("same");
    let bytes = files::pattern(&ENTRIES_A);
    let pattern = directory.file("pattern.bin", &bytes);
    let [link, twin] = ["link.bin", "twin.bin"].map(|name| directory.0.join(name));
    symlink("pattern.bin", &link).expect("a link");
    fs::hard_link(&pattern, &twin).expect("a second name");
    for target in [&pattern, &link, &twin] {
        let said = format!("{}: can't be written: it is the pattern", target.display());
        check_parts(&plan(&["--over"], &pattern, target), 3, &[&said]);
        assert_eq!(fs::read(target).expect("the pattern"), bytes);
    }
    assert_eq!(directory.names(), ["link.bin", "pattern.bin", "twin.bin"]);
}

#[test]
fn replaced_file_keeps_its_permissions() {
    let directory = Directory::new("kept");
    let pattern = directory.file("pattern.bin", &files::pattern(&ENTRIES_A));
    for mode in [0o600, 0o640, 0o664, 0o755] {
        let proposal = directory.file("proposal.bin", b"old");
        fs::set_permissions(&proposal, Permissions::from_mode(mode)).expect("new permissions");
        assert!(plan(&["--over"], &pattern, &proposal).status.success());
        assert!(fs::read(&proposal).expect("a proposal").starts_with(b"TAB"));
        let kept = fs::metadata(&proposal).expect("a proposal").permissions().mode();
        assert_eq!(kept & 0o7777, mode);
    }
}

/// The superuser may write any file, whatever its permissions say.
#[test]
fn file_that_may_not_be_written_is_left_alone() {
    let directory = Directory::new("permission");
    let pattern = directory.file("pattern.bin", &files::pattern(&ENTRIES_A));
    let proposal = directory.file("proposal.bin", b"old");
    fs::set_permissions(&proposal, Permissions::from_mode(0o444)).expect("new permissions");
    let may_write = OpenOptions::new().write(true).open(&proposal).is_ok();
    let output = plan(&["--over"], &pattern, &proposal);
    if may_write {
        assert!(output.status.success());
    } else {
        check_parts(&output, 3, &["proposal.bin: can't be written: Permission denied"]);
        assert_eq!(fs::read(&proposal).expect("the old file"), b"old");
    }
}

/// All names are used, so that no tableau begins, and no model meets the pattern: as many are tried as the budget
/// allows. That takes longer than the half second after which a terminal is shown how far it is.
#[test]
fn a_long_search_tells_a_file_only_how_it_ended() {
    let directory = Directory::new("plan-long");
    let names: String = (0..128).map(|name| format!("@{name}")).collect();
    let text = format!("([{names}=0]&(p0&!p0))");
    let proposal = directory.0.join("proposal.bin");
    let begun = Instant::now();
    let output =
        run(&[OsStr::new("plan"), OsStr::new("-o"), proposal.as_ref(), OsStr::new("-e"), OsStr::new(&text)]);
    assert!(begun.elapsed() > Duration::from_millis(500), "too short to be shown");
    check_parts(&output, 1, &[]);
    let message = String::from_utf8_lossy(&output.stderr);
    assert_eq!(message, "riser plan: the text: nothing found within a budget of 100,000\n");
}
