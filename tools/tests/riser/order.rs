//! `riser order`: what it writes and says, and that a failure leaves files as they were.

use crate::common::directory::Directory;
use crate::common::output::{run_full, run_unread};
use crate::common::tool::{RISER, check_failure, check_success, check_usage, printed, run};
use crate::files::{model, model_g, plain};
use std::ffi::OsStr;
use std::fs::{self, OpenOptions, Permissions};
use std::os::unix::fs::{PermissionsExt, symlink};
use std::path::{Path, PathBuf};
use std::process::{Command, Output};

/// Orders a block into a new file.
fn order(old: &Path, new: &Path) -> Output {
    run(&[OsStr::new("order"), old.as_ref(), OsStr::new("-o"), new.as_ref()])
}

/// The same, over a file that may be there.
fn order_over(old: &Path, new: &Path) -> Output {
    run(&[OsStr::new("order"), OsStr::new("--over"), OsStr::new("-o"), new.as_ref(), old.as_ref()])
}

/// What is said of a file that was written.
fn said_of(new: &Path, said: &str) -> String {
    format!("{}: {said}", new.display())
}

fn bytes(file: &Path) -> Vec<u8> {
    fs::read(file).expect("a file")
}

/// A model of three nodes, with names in no order and these edges.
fn block(edges: &[[u8; 3]]) -> Vec<u8> {
    model(&[plain(7), plain(8), plain(9)], &[[90, 2], [4, 0]], edges)
}

/// An older block with a repeat, the same in order, and what is said of it.
fn older() -> (Vec<u8>, Vec<u8>, &'static str) {
    let old = block(&[[2, 0, 1], [0, 3, 0], [2, 0, 1], [0, 0, 2]]);
    let new = block(&[[0, 0, 2], [0, 3, 0], [2, 0, 1]]);
    (old, new, "4 edges, 1 repeat dropped: 3 edges in order")
}

/// A directory with an older block, and the path of a new file in it.
fn prepared(test: &str, old: &[u8]) -> (Directory, PathBuf, PathBuf) {
    let directory = Directory::new(test);
    let old = directory.file("old.bin", old);
    let new = directory.0.join("new.bin");
    (directory, old, new)
}

#[test]
fn writes_a_new_file_and_says_so() {
    let many: Vec<[u8; 3]> =
        (0..3000usize).map(|edge| [edge / 512, edge / 64 % 8, edge % 64].map(|at| at as u8)).collect();
    let large = |edges: &[[u8; 3]]| model(&[plain(0); 64], &[], edges);
    let cases = [
        older(),
        (block(&[[1, 0, 0], [0, 0, 0]]), block(&[[0, 0, 0], [1, 0, 0]]), "2 edges, no repeats: put in order"),
        (block(&[[1, 0, 0]; 3]), block(&[[1, 0, 0]]), "3 edges, 2 repeats dropped: 1 edge in order"),
        (block(&[]), block(&[]), "0 edges, already in order: copied as it is"),
        (model_g(), model_g(), "3 edges, already in order: copied as it is"),
        (
            large(&[&many[..], &many[..1096]].concat()),
            large(&many),
            "4,096 edges, 1,096 repeats dropped: 3,000 edges in order",
        ),
    ];
    for (old_bytes, new_bytes, said) in cases {
        let (directory, old, new) = prepared("order-writes", &old_bytes);
        check_success(&order(&old, &new), &said_of(&new, said));
        assert_eq!(bytes(&new), new_bytes);
        assert_eq!(bytes(&old), old_bytes);
        assert_eq!(directory.names(), ["new.bin", "old.bin"]);
    }
}

#[test]
fn makes_the_sample_in_order_of_the_one_as_sent() {
    let samples = Path::new(env!("CARGO_MANIFEST_DIR")).join("../crates/readings/data");
    let proposal = |folder: &str| samples.join(folder).join("proposal.bin");
    let directory = Directory::new("order-samples");
    let new = directory.0.join("new.bin");
    let output = order(&proposal("refused_28_older_block"), &new);
    check_success(&output, &said_of(&new, "8 edges, 2 repeats dropped: 6 edges in order"));
    assert_eq!(bytes(&new), bytes(&proposal("older_block_in_order")));
}

#[test]
fn a_file_that_is_there_is_replaced_only_if_asked() {
    let (old_bytes, new_bytes, said) = older();
    let (directory, old, new) = prepared("order-over", &old_bytes);
    fs::write(&new, b"kept").expect("a new file");
    let message = format!("riser order: {}: it is there already; --over replaces it", new.display());
    check_failure(&order(&old, &new), 3, &message);
    assert_eq!(bytes(&new), b"kept");
    check_success(&order_over(&old, &new), &said_of(&new, said));
    assert_eq!(bytes(&new), new_bytes);
    assert_eq!(bytes(&old), old_bytes);
    assert_eq!(directory.names(), ["new.bin", "old.bin"]);
}

/// By its own name, by a link, and by a second name.
#[test]
fn the_old_file_is_replaced_only_if_asked() {
    let (old_bytes, new_bytes, said) = older();
    let (directory, old, _) = prepared("order-same", &old_bytes);
    let [link, twin] = ["link.bin", "twin.bin"].map(|name| directory.0.join(name));
    symlink("old.bin", &link).expect("a link");
    fs::hard_link(&old, &twin).expect("a second name");
    for target in [&old, &link, &twin] {
        let message = format!(
            "riser order: {}: can't be written: it is the old file; --over replaces it",
            target.display()
        );
        check_failure(&order(&old, target), 3, &message);
        assert_eq!(bytes(&old), old_bytes);
    }
    check_success(&order_over(&old, &link), &said_of(&link, said));
    assert_eq!(bytes(&old), new_bytes);
    assert!(link.is_symlink());
    assert_eq!(bytes(&twin), old_bytes, "the second name is another file's now");
    let before = fs::metadata(&old).expect("the file").modified().expect("a time");
    check_success(&order_over(&old, &old), &said_of(&old, "3 edges, already in order: left as it is"));
    assert_eq!(fs::metadata(&old).expect("the file").modified().expect("a time"), before);
    assert_eq!(directory.names(), ["link.bin", "old.bin", "twin.bin"]);
}

/// Files that are refused, and what is said of each.
fn refused() -> [(Vec<u8>, String); 5] {
    let record = "The record is from 0, axis 8, to 0; the last node is 2, the last axis 7.";
    let twice =
        "The record is name 4, node 0; the last name is 127, the last node 2. Name record 1 has the name.";
    let spoilt = |at: usize, value: u8| {
        let mut bytes = block(&[]);
        bytes[at] = value;
        bytes
    };
    [
        (block(&[[1, 0, 0], [0, 0, 0], [0, 8, 0]]), format!("14 2, edge record 2: a field is out of range.\n{record}")),
        (
            model(&[plain(0); 3], &[[9, 0], [4, 0], [4, 0]], &[]),
            format!("13 2, name record 2: the name or the node is out of range, or an earlier record has the name.\n{twice}"),
        ),
        (
            spoilt(7, 1),
            "12 0: a count is out of range (nodes 1 to 64, names up to 128, edges up to 4096), or the length doesn't \
             fit them.\nThe file says 3 nodes, 2 names, 1 edge, which makes 52 bytes; it has 49 bytes."
                .to_string(),
        ),
        (
            spoilt(3, 2),
            "11 0: the model file's version isn't 1.\nThe file has 49 bytes and begins 44 41 54 02 00.".to_string(),
        ),
        (
            Vec::new(),
            "10 0: the model file has under 9 bytes or doesn't begin with DAT.\nThe file is empty.".to_string(),
        ),
    ]
}

#[test]
fn a_refusal_names_file_and_record_and_writes_nothing() {
    for (old_bytes, words) in refused() {
        let (directory, old, new) = prepared("order-refused", &old_bytes);
        let message = format!("riser order: {}: refused {words}", old.display());
        check_failure(&order(&old, &new), 2, &message);
        assert_eq!(bytes(&old), old_bytes);
        assert_eq!(directory.names(), ["old.bin"]);
        fs::write(&new, b"kept").expect("a new file");
        check_failure(&order_over(&old, &new), 2, &message);
        assert_eq!(bytes(&new), b"kept");
    }
}

#[test]
fn a_file_that_cannot_be_written_is_named() {
    let (directory, old, _) = prepared("order-unwritable", &older().0);
    let inside = directory.0.join("missing").join("new.bin");
    let message =
        |file: &Path, why: &str| format!("riser order: {}: can't be written: {why}", file.display());
    check_failure(&order(&old, &inside), 3, &message(&inside, "No such file or directory (os error 2)"));
    let folder = directory.0.join("folder");
    fs::create_dir(&folder).expect("a directory");
    for output in [order(&old, &folder), order_over(&old, &folder)] {
        check_failure(&output, 3, &message(&folder, "it isn't a regular file"));
    }
    assert_eq!(directory.names(), ["folder", "old.bin"]);
}

/// Where no file is named it is the one that the bench program reads.
#[test]
fn the_file_is_proposal_bin_unless_another_is_named() {
    let (old, new, said) = older();
    let directory = Directory::new("order-unnamed");
    directory.file("old.bin", &old);
    let output = Command::new(RISER).args(["order", "old.bin"]).current_dir(&directory.0).output();
    check_success(&output.expect("the tool runs"), &format!("proposal.bin: {said}"));
    assert_eq!(bytes(&directory.0.join("proposal.bin")), new);
}

#[test]
fn a_replaced_file_keeps_its_permissions() {
    let (old_bytes, new_bytes, said) = older();
    let (_directory, old, _) = prepared("order-kept", &old_bytes);
    for mode in [0o600, 0o640, 0o664] {
        fs::write(&old, &old_bytes).expect("the old file");
        fs::set_permissions(&old, Permissions::from_mode(mode)).expect("new permissions");
        check_success(&order_over(&old, &old), &said_of(&old, said));
        assert_eq!(bytes(&old), new_bytes);
        assert_eq!(fs::metadata(&old).expect("the file").permissions().mode() & 0o7777, mode);
    }
}

/// The superuser may write any file, whatever its permissions say.
#[test]
fn a_file_that_may_not_be_written_is_left_alone() {
    let (directory, old, new) = prepared("order-permission", &older().0);
    fs::write(&new, b"kept").expect("a new file");
    fs::set_permissions(&new, Permissions::from_mode(0o444)).expect("new permissions");
    let may_write = OpenOptions::new().write(true).open(&new).is_ok();
    let output = order_over(&old, &new);
    assert_eq!(output.status.success(), may_write);
    assert_eq!(bytes(&new) != b"kept", may_write);
    assert_eq!(directory.names(), ["new.bin", "old.bin"]);
}

/// Runs the tool in a shell that lets a file have so many blocks. A file that would get larger ends the tool in the
/// middle of writing it, as a power cut does; or, if the shell has that signal ignored, writing fails, as on a full
/// disk.
fn run_limited(ignored: bool, old: &Path, new: &Path) -> Output {
    let trap = if ignored { "trap '' XFSZ; " } else { "" };
    let script = format!("{trap}ulimit -c 0; ulimit -f 1; exec \"$0\" \"$@\"");
    let words = ["-c", &script, RISER, "order", "--over", "-o"];
    Command::new("sh").args(words).args([new, old]).output().expect("a shell")
}

/// A block that is larger than the blocks that are allowed.
fn large() -> Vec<u8> {
    let falling = (0..4096usize).rev().map(|edge| [edge / 64, 0, edge % 64].map(|at| at as u8));
    model(&[plain(0); 64], &[], &falling.collect::<Vec<_>>())
}

#[test]
fn a_full_disk_leaves_all_files_as_they_were() {
    let (directory, old, new) = prepared("order-full", &large());
    for target in [&new, &old] {
        let output = run_limited(true, &old, target);
        let message =
            format!("riser order: {}: can't be written: File too large (os error 27)", target.display());
        check_failure(&output, 3, &message);
        assert_eq!(bytes(&old), large());
        assert_eq!(directory.names(), ["old.bin"]);
    }
}

/// What is left is the part that was written, under another name.
#[test]
fn an_end_in_the_middle_of_writing_leaves_old_and_new_whole() {
    let (directory, old, new) = prepared("order-ended", &large());
    let output = run_limited(false, &old, &new);
    assert_eq!(output.status.code(), None, "ended by a signal");
    assert!(!new.exists());
    let left = directory.names();
    assert!(
        matches!(&left[..], [part, last] if part.starts_with("new.bin.") && last == "old.bin"),
        "{left:?}"
    );
    fs::write(&new, b"kept").expect("a new file");
    for target in [&new, &old] {
        assert_eq!(run_limited(false, &old, target).status.code(), None);
        assert_eq!(bytes(&old), large());
        assert_eq!(bytes(&new), b"kept");
    }
}

#[test]
fn bad_arguments_give_the_usage() {
    for (arguments, why) in [
        (&[][..], "no block is given"),
        (&["--over"], "no block is given"),
        (&["a", "b"], "there is a file too many: b"),
        (&["a", "-o"], "-o wants a file behind it"),
        (&["-e", "p0"], "there is no option '-e'"),
    ] {
        let output = run(&[&["order"], arguments].concat());
        check_usage(&output, &format!("riser order: {why}"), "riser order [-o FILE] [--over] OLD");
    }
}

/// The new file is there by then.
#[test]
fn an_output_that_nobody_reads_or_that_is_full_is_no_failure() {
    let (old_bytes, new_bytes, _) = older();
    for (run, said) in
        [(run_unread as fn(&str, &[&str]) -> Output, ""), (run_full, "riser order: standard output: ")]
    {
        let (_directory, old, new) = prepared("order-output", &old_bytes);
        let [old, path] = [&old, &new].map(|file| file.to_str().expect("text"));
        let output = run(RISER, &["order", old, "-o", path]);
        assert_eq!(output.status.code(), Some(0));
        let message = printed(&output.stderr);
        assert!(message.starts_with(said) && message.is_empty() == said.is_empty(), "{message}");
        assert_eq!(bytes(&new), new_bytes);
    }
}
