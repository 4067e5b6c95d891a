//! Files that are missing, unreadable or oversized, with every command that reads them.

use crate::common::directory::Directory;
use crate::common::tool::{check_failure, printed, run};
use crate::files::{ENTRIES_A, STEPS_A, model_g, pattern, tableau};
use std::ffi::OsStr;
use std::path::Path;

/// The commands that read a file, with the words before and behind it.
const READING: [(&str, &[&str], &[&str]); 9] = [
    ("judge", &[], &["proposal.bin"]),
    ("judge", &["-e", "p0"], &[]),
    ("judge", &["--text"], &["proposal.bin"]),
    ("explain", &["-e", "p0"], &[]),
    ("explain", &["--html", "page.html", "-e", "p0"], &[]),
    ("explain", &["--text"], &["proposal.bin"]),
    ("plan", &[], &[]),
    ("type", &["--text"], &[]),
    ("order", &[], &[]),
];

/// Runs a command on a file, in a directory with a proposal.
fn run_on(
    directory: &Directory,
    (command, before, behind): (&str, &[&str], &[&str]),
    file: &Path,
) -> std::process::Output {
    let words = [command].into_iter().chain(before.iter().copied()).map(OsStr::new);
    let words = words.chain([file.as_os_str()]).chain(behind.iter().copied().map(OsStr::new));
    std::process::Command::new(crate::common::tool::RISER)
        .args(words)
        .current_dir(&directory.0)
        .output()
        .expect("the tool runs")
}

#[test]
fn a_file_that_cannot_be_read_is_named() {
    let directory = Directory::new("unusable-read");
    directory.file("proposal.bin", &model_g());
    let folder = directory.0.clone();
    for reading in READING {
        for (file, why) in [
            (Path::new("missing"), "No such file or directory (os error 2)"),
            (&folder, "Is a directory (os error 21)"),
            (Path::new("/proc/self/mem"), "Input/output error (os error 5)"),
        ] {
            let message = format!("riser {}: {}: can't be read: {why}", reading.0, file.display());
            check_failure(&run_on(&directory, reading, file), 3, &message);
        }
    }
    assert_eq!(directory.names(), ["proposal.bin"]);
}

/// Of a file without an end so much is read as shows that it is too long for anything.
#[test]
fn a_file_without_an_end_is_refused() {
    let directory = Directory::new("unusable-endless");
    directory.file("proposal.bin", &model_g());
    for reading in READING {
        let output = run_on(&directory, reading, Path::new("/dev/zero"));
        let said = printed(&output.stdout) + &printed(&output.stderr);
        assert_eq!(output.status.code(), Some(2), "{said}");
        let refused = match (reading.0, reading.1.last(), reading.2.is_empty()) {
            (_, Some(&"--text"), _) => "refused 30 0",
            ("plan", ..) | (_, None, false) => "refused 1 0",
            _ => "refused 10 0",
        };
        assert!(said.contains(refused), "{reading:?}: {said}");
    }
    assert_eq!(directory.names(), ["page.html", "proposal.bin"]);
}

/// Files that begin as they should and are too long: the unit's own refusal.
#[test]
fn an_oversized_file_is_refused_as_the_unit_refuses_it() {
    let directory = Directory::new("unusable-oversized");
    let a = directory.file("pattern.bin", &pattern(&ENTRIES_A));
    let grown = |mut bytes: Vec<u8>, length: usize| {
        bytes.resize(length, 0);
        bytes
    };
    let judge = |pattern: &Path, proposal: &Path| {
        let output = run(&[OsStr::new("judge"), pattern.as_ref(), proposal.as_ref()]);
        assert_eq!((output.status.code(), printed(&output.stderr)), (Some(2), String::new()));
        printed(&output.stdout)
    };
    for length in [24_584, 24_585, 10_000_000] {
        let has = if length == 24_584 { "24,584 bytes" } else { "over 24,584 bytes" };
        let tab = directory.file("tableau.bin", &grown(tableau(0, &STEPS_A), length));
        let said = judge(&a, &tab);
        assert!(said.starts_with("refused 17 0\n"), "{said}");
        assert!(
            said.ends_with(&format!("\nThe file says 3 steps, which makes 26 bytes; it has {has}.\n")),
            "{said}"
        );
        let block = directory.file("block.bin", &grown(model_g(), length));
        assert!(judge(&a, &block).starts_with("refused 12 0\n"));
        let long = directory.file("long.bin", &grown(pattern(&ENTRIES_A), length));
        assert!(judge(&long, &block).starts_with("refused 3 0\n"));
    }
}
