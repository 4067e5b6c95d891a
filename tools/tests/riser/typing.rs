//! `riser type`: what it writes and says, and that a failure leaves files as they were.

use crate::common::directory::Directory;
use crate::common::output::{run_full, run_unread};
use crate::common::tool::{RISER, check_failure, check_success, check_usage, printed, run, run_fed};
use crate::files::{ENTRIES_A, ENTRIES_G, pattern, texts};
use oracle::random::Random;
use std::ffi::OsStr;
use std::fs::{self, Permissions};
use std::os::unix::fs::{PermissionsExt, symlink};
use std::path::Path;
use std::process::{Command, Output};

const USAGE: &str = "riser type [-o FILE] [--over] (TEXT | -e TEXT | --text FILE)";

/// Runs `riser type`.
fn run_type(arguments: &[&OsStr]) -> Output {
    run(&[&[OsStr::new("type")], arguments].concat())
}

/// Runs the tool on a text, with a file to write.
fn run_to(file: &Path, text: &str) -> Output {
    run_type(&[OsStr::new("-o"), file.as_os_str(), OsStr::new(text)])
}

fn bytes(file: &Path) -> Vec<u8> {
    fs::read(file).expect("a file")
}

/// The message that begins with the file's name.
fn message(file: &Path, words: &str) -> String {
    format!("riser type: {}: {words}", file.display())
}

#[test]
fn writes_a_pattern_file_and_says_so() {
    let directory = Directory::new("type-writes");
    let file = directory.0.join("new.bin");
    let nots: Vec<[u8; 4]> =
        std::iter::once([1, 0, 0, 0]).chain((0..254).map(|below| [3, below, 0, 0])).collect();
    let cases: [(&str, &[[u8; 4]], &str); 4] = [
        ("(<0>p0&!<0>p0)", &ENTRIES_A, "4 entries, 22 bytes"),
        ("([/0=0/1]&[/0#0/1])", &ENTRIES_G, "5 entries, 26 bytes"),
        ("p31", &[[1, 31, 0, 0]], "1 entry, 10 bytes"),
        (&format!("{}p0", "!".repeat(254)), &nots, "255 entries, 1,026 bytes"),
    ];
    for (text, entries, said) in cases {
        check_success(&run_to(&file, text), &format!("{}: {said}", file.display()));
        assert_eq!(bytes(&file), pattern(entries), "{text}");
        assert_eq!(directory.names(), ["new.bin"]);
        fs::remove_file(&file).expect("the file");
    }
}

#[test]
fn the_file_is_pattern_bin_unless_another_is_named() {
    let directory = Directory::new("type-unnamed");
    let output =
        Command::new(RISER).args(["type", "p0"]).current_dir(&directory.0).output().expect("the tool runs");
    check_success(&output, "pattern.bin: 1 entry, 10 bytes");
    assert_eq!(bytes(&directory.0.join("pattern.bin")), pattern(&[[1, 0, 0, 0]]));
}

#[test]
fn takes_a_text_from_a_file_or_standard_input() {
    let directory = Directory::new("type-text");
    let (file, from) = (directory.0.join("new.bin"), OsStr::new("--text"));
    for text in ["p7", "p7\n"] {
        let source = directory.file("pattern.txt", text.as_bytes());
        let read = run_type(&[from, source.as_ref(), OsStr::new("-o"), file.as_ref()]);
        let fed = [
            OsStr::new("type"),
            from,
            OsStr::new("-"),
            OsStr::new("-o"),
            file.as_ref(),
            OsStr::new("--over"),
        ];
        for output in [read, run_fed(&fed, text.as_bytes())] {
            check_success(&output, &format!("{}: 1 entry, 10 bytes", file.display()));
            assert_eq!(bytes(&file), pattern(&[[1, 7, 0, 0]]));
        }
        assert_eq!(bytes(&source), text.as_bytes());
        fs::remove_file(&file).expect("the file");
    }
}

/// Texts that are refused, and what is said of each.
fn refused() -> [(String, String); 5] {
    let outside = "no typed pattern has that there";
    [
        ("(p32&", "30 5, byte 5: the text ends there, which no typed pattern does.\n\
             Wanted there: p n ! ( < or [.\n  (p32&\n       ^".to_string()),
        ("p0\n", format!("30 2, byte 2: {outside}.\nWanted there: the end.\n  p0\\n\n    ^")),
        (
            "<8>p0",
            "31 1, byte 1: the number is out of range.\n\
             The last property is 31, the last name 127, axis 7, channel 3.\n  <8>p0\n   ^"
                .to_string(),
        ),
        (&"!".repeat(1025), "30 0: the text has over 1,024 bytes.".to_string()),
        (
            &format!("{}p0", "!".repeat(255)),
            "32 0: the text makes over 255 different entries, or the destination is shorter than the pattern \
             file.\nThe text makes 256 entries."
                .to_string(),
        ),
    ]
    .map(|(text, words)| (text.to_string(), words))
}

#[test]
fn a_refusal_shows_the_place_and_writes_nothing() {
    for (text, words) in refused() {
        let directory = Directory::new("type-refused");
        let file = directory.0.join("new.bin");
        let message = format!("riser type: the text: refused {words}");
        check_failure(&run_to(&file, &text), 2, &message);
        assert!(directory.names().is_empty());
        fs::write(&file, b"kept").expect("a new file");
        let over = [OsStr::new("--over"), OsStr::new("-o"), file.as_os_str(), OsStr::new(&text)];
        check_failure(&run_type(&over), 2, &message);
        assert_eq!(bytes(&file), b"kept");
    }
}

#[test]
fn a_refused_text_in_a_file_is_named() {
    let directory = Directory::new("type-named");
    let source = directory.file("pattern.txt", b"p0\n\n");
    let output = run_type(&[OsStr::new("--text"), source.as_ref()]);
    let said = printed(&output.stderr);
    assert!(said.starts_with(&message(&source, "refused 30 2, byte 2: ")), "{said}");
    assert!(said.ends_with("\n  p0\\n\n    ^\n"), "{said}");
    let output = run_fed(&["type", "--text", "-"].map(OsStr::new), b"");
    assert!(printed(&output.stderr).starts_with("riser type: standard input: refused 30 0, byte 0: "));
    let output = run(&["type", "--text", "/dev/zero"]);
    assert!(printed(&output.stderr).starts_with("riser type: /dev/zero: refused 30 0: the text has over "));
    assert_eq!(output.status.code(), Some(2));
}

/// Who gives the name of a file for a text is reminded of `--text`.
#[test]
fn a_file_in_the_place_of_a_text_is_seen() {
    let directory = Directory::new("type-file");
    let file = directory.file("pattern.txt", b"p0");
    let said = printed(&run_type(&[file.as_ref()]).stderr);
    assert!(said.ends_with("\nThere is a file of that name: --text takes it.\n"), "{said}");
}

#[test]
fn a_file_that_is_there_is_replaced_only_if_asked() {
    let directory = Directory::new("type-over");
    let file = directory.file("new.bin", b"kept");
    fs::set_permissions(&file, Permissions::from_mode(0o640)).expect("new permissions");
    let link = directory.0.join("link.bin");
    symlink("new.bin", &link).expect("a link");
    for target in [&file, &link] {
        check_failure(&run_to(target, "p0"), 3, &message(target, "it is there already; --over replaces it"));
        assert_eq!(bytes(&file), b"kept");
    }
    let output = run_type(&[OsStr::new("p0"), OsStr::new("--over"), OsStr::new("-o"), link.as_ref()]);
    check_success(&output, &format!("{}: 1 entry, 10 bytes", link.display()));
    assert_eq!(bytes(&file), pattern(&[[1, 0, 0, 0]]));
    assert_eq!(fs::metadata(&file).expect("the file").permissions().mode() & 0o7777, 0o640);
    assert!(link.is_symlink());
    assert_eq!(directory.names(), ["link.bin", "new.bin"]);
}

#[test]
fn the_text_is_never_replaced() {
    let directory = Directory::new("type-same");
    let source = directory.file("pattern.txt", b"p0\n");
    let from = [OsStr::new("--text"), source.as_ref(), OsStr::new("-o"), source.as_ref()];
    let message = message(&source, "can't be written: it is the text");
    check_failure(&run_type(&from), 3, &message);
    check_failure(&run_type(&[&from[..], &[OsStr::new("--over")]].concat()), 3, &message);
    assert_eq!(bytes(&source), b"p0\n");
}

#[test]
fn a_file_that_cannot_be_read_or_written_is_named() {
    let directory = Directory::new("type-unreadable");
    let missing = directory.0.join("missing.txt");
    let unread = |file: &Path| run_type(&[OsStr::new("--text"), file.as_ref()]);
    let none = "No such file or directory (os error 2)";
    check_failure(&unread(&missing), 3, &message(&missing, &format!("can't be read: {none}")));
    let folder = "can't be read: Is a directory (os error 21)";
    check_failure(&unread(&directory.0), 3, &message(&directory.0, folder));
    let inside = missing.join("new.bin");
    check_failure(&run_to(&inside, "p0"), 3, &message(&inside, &format!("can't be written: {none}")));
    let irregular = message(&directory.0, "can't be written: it isn't a regular file");
    check_failure(&run_to(&directory.0, "p0"), 3, &irregular);
    assert!(directory.names().is_empty());
}

#[test]
fn bad_arguments_give_the_usage() {
    let all: [(&[&str], &str); 9] = [
        (&[], "no text is given"),
        (&["--over"], "no text is given"),
        (&["p0", "p1"], "more than one text is given"),
        (&["p0", "--text", "file"], "more than one text is given"),
        (&["-e", "p0", "--text", "file"], "the pattern is typed twice, by -e and by --text"),
        (&["--text"], "--text wants a file behind it"),
        (&["-o", "p0"], "no text is given"),
        (&["p0", "-o"], "-o wants a file behind it"),
        (&["-o", "a", "-o", "b", "p0"], "-o is given twice"),
    ];
    for (arguments, why) in all {
        check_usage(&run(&[&["type"], arguments].concat()), &format!("riser type: {why}"), USAGE);
    }
}

/// The file is there by then.
#[test]
fn an_output_that_nobody_reads_or_that_is_full_is_no_failure() {
    let directory = Directory::new("type-output");
    let file = directory.0.join("new.bin");
    let arguments = ["type", "-o", file.to_str().expect("text"), "--over", "p0"];
    for (run, said) in
        [(run_unread as fn(&str, &[&str]) -> Output, ""), (run_full, "riser type: standard output: ")]
    {
        let output = run(RISER, &arguments);
        assert_eq!(output.status.code(), Some(0));
        let message = printed(&output.stderr);
        assert!(message.starts_with(said) && message.is_empty() == said.is_empty(), "{message}");
        assert_eq!(bytes(&file), pattern(&[[1, 0, 0, 0]]));
        fs::remove_file(&file).expect("the file");
    }
}

/// What it writes of any text is what `oracle` makes of it.
#[test]
fn random_texts() {
    let directory = Directory::new("type-random");
    let file = directory.0.join("new.bin");
    for number in 0..40 {
        let text = texts::node(&mut Random::new(21, number), 3);
        let output = run_type(&[OsStr::new("-o"), file.as_ref(), OsStr::new("--over"), OsStr::new(&text)]);
        match oracle::typed::type_pattern(text.as_bytes(), 1026) {
            Ok(expected) => assert_eq!((output.status.code(), bytes(&file)), (Some(0), expected), "{text}"),
            Err(_) => assert_eq!(output.status.code(), Some(2), "{text}"),
        }
    }
}
