//! The tools' arguments, what they say of errors, and what they do if nobody takes what they print.

#[path = "../../tools/tests/riser/common/output.rs"]
mod output;

use output::{run_full, run_unread};
use std::ffi::OsStr;
use std::fs::{self, Permissions};
use std::os::unix::ffi::OsStrExt;
use std::os::unix::fs::PermissionsExt;
use std::process::{Command, Output};
use std::time::{Duration, Instant};
use trial::generate::input::{Input, Operation};
use trial::generate::{BLOCK, Generator};

const DIFFERENTIAL: &str = env!("CARGO_BIN_EXE_differential");
const PROGRAMS: &str = env!("CARGO_BIN_EXE_programs");
const BENCHMARK: &str = env!("CARGO_BIN_EXE_benchmark");
/// A program that is no bench program: started without arguments it gives its usage at once.
const OTHER: &str = PROGRAMS;

fn run(program: &str, arguments: &[impl AsRef<OsStr>]) -> Output {
    Command::new(program).args(arguments).output().expect("the tool can be started")
}

fn text(bytes: &[u8]) -> String {
    String::from_utf8_lossy(bytes).into_owned()
}

/// Checks that the arguments are refused with the usage.
fn check_usage(program: &str, arguments: &[impl AsRef<OsStr>], usage: &str) {
    let output = run(program, arguments);
    let message = text(&output.stderr);
    assert_eq!(output.status.code(), Some(2), "{message}");
    assert!(message.contains(usage), "{message}");
    assert!(output.stdout.is_empty());
}

#[test]
fn bad_arguments_give_the_usage() {
    let of_differential = ["--count", "--count x", "--count -1", "--threads 0", "--only -1", "x"];
    for words in of_differential {
        check_usage(DIFFERENTIAL, &Vec::from_iter(words.split(' ')), "usage: differential");
    }
    check_usage(PROGRAMS, &[""; 0], "usage: programs");
    check_usage(PROGRAMS, &["a", "b", "c"], "usage: programs");
    check_usage(PROGRAMS, &["--typist"], "programs --typist PROGRAM");
    check_usage(PROGRAMS, &["--typist", "a", "b"], "programs --typist PROGRAM");
    check_usage(BENCHMARK, &["x"], "no group is called \"x\"\nusage: benchmark");
}

#[test]
fn options_that_come_twice_or_do_not_go_together_give_the_usage() {
    let twice = ["--long --long", "--count 1 --count 1", "--seed 1 --seed 2", "--only 1 --only 1"];
    let apart = ["--long --count 1", "--count 1 --long", "--only 1 --long", "--only 1 --count 1"];
    let threads = ["--threads 1 --threads 1", "--threads 1 --only 1"];
    for words in [&twice[..], &apart, &threads].concat() {
        check_usage(DIFFERENTIAL, &Vec::from_iter(words.split(' ')), "usage: differential");
    }
}

#[test]
fn arguments_may_be_any_bytes() {
    let odd = OsStr::from_bytes(b"\xff");
    check_usage(DIFFERENTIAL, &[odd], "usage: differential");
    check_usage(DIFFERENTIAL, &[OsStr::new("--count"), odd], "usage: differential");
    check_usage(BENCHMARK, &[odd], "usage: benchmark");
    let output = run(PROGRAMS, &[odd]);
    assert_eq!(output.status.code(), Some(1));
    assert!(text(&output.stderr).starts_with("programs: \u{fffd}: No such file"));
}

#[test]
fn an_output_that_nobody_reads_leaves_the_answer_as_it_is() {
    let code = |program, arguments: &[&str]| {
        let output = run_unread(program, arguments);
        assert!(!text(&output.stderr).contains("panicked"), "{}", text(&output.stderr));
        output.status.code()
    };
    assert_eq!(code(DIFFERENTIAL, &["--only", "77"]), Some(0));
    assert_eq!(code(DIFFERENTIAL, &["--count", "10"]), Some(1));
    assert_eq!(code(PROGRAMS, &[OTHER]), Some(1));
    assert_eq!(code(BENCHMARK, &[]), Some(0));
}

#[test]
fn an_output_that_is_full_is_an_error() {
    let message = |program, arguments: &[&str]| {
        let output = run_full(program, arguments);
        assert_eq!(output.status.code(), Some(1));
        text(&output.stderr)
    };
    assert!(message(DIFFERENTIAL, &["--only", "77"]).starts_with("differential: standard output: "));
    assert!(message(DIFFERENTIAL, &["--count", "10"]).starts_with("differential: standard output: "));
    assert!(message(PROGRAMS, &[OTHER]).starts_with("programs: standard output: "));
    assert!(message(BENCHMARK, &[]).starts_with("benchmark: standard output: "));
}

/// Both take longer than the half second after which a terminal is shown how far they are.
#[test]
fn progress_is_for_a_terminal_only() {
    let begun = Instant::now();
    let differential = text(&run(DIFFERENTIAL, &["--count", "40000"]).stderr);
    assert!(begun.elapsed() > Duration::from_millis(500), "too short to be shown");
    let is_of_the_tally = |line: &str| line.starts_with("differential: never occurred: ");
    assert!(differential.lines().all(is_of_the_tally), "{differential:?}");
    assert_eq!(text(&run(BENCHMARK, &["ordering"]).stderr), "");
}

#[test]
fn one_input_is_shown_in_full() {
    let output = run(DIFFERENTIAL, &["--seed", "3", "--only", "77"]);
    assert_eq!(output.status.code(), Some(0));
    let shown = text(&output.stdout);
    for beginning in
        ["input 77 of seed 3: ", "operation  ", "pattern    ", "oracle     ", "unit       ", "fast       "]
    {
        assert!(shown.lines().any(|line| line.starts_with(beginning)), "{beginning:?} in {shown}");
    }
    assert_eq!(shown, text(&run(DIFFERENTIAL, &["--only", "77", "--seed", "3"]).stdout));
}

/// What is shown of the first input of the operation, with lines that begin so.
fn shown_of(operation: Operation, beginnings: [&str; 4]) -> String {
    let mut input = Input::blank();
    let mut generator = Generator::new(1);
    let is_such = |number: &u64| {
        generator.make(*number, &mut input);
        input.operation == operation
    };
    let number = (0..BLOCK).find(is_such).expect("an input of the operation");
    let output = run(DIFFERENTIAL, &["--only", &number.to_string()]);
    assert_eq!(output.status.code(), Some(0));
    let shown = text(&output.stdout);
    for beginning in beginnings {
        assert!(shown.lines().any(|line| line.starts_with(beginning)), "{beginning:?} in {shown}");
    }
    shown
}

#[test]
fn a_model_to_be_put_in_order_is_shown_in_full() {
    let beginnings = ["operation   putting a model in order", "old file    ", "destination ", "unit        "];
    let shown = shown_of(Operation::Ordering, beginnings);
    assert!(!shown.contains("pattern"), "{shown}");
}

#[test]
fn a_pattern_whose_area_is_asked_for_is_shown_in_full() {
    let beginnings = [
        "operation   asking for the area of a pattern",
        "pattern     ",
        "unit        area ",
        "fast        area ",
    ];
    let shown = shown_of(Operation::Area, beginnings);
    assert!(!shown.lines().any(|line| line.starts_with("proposal") || line.starts_with("area")), "{shown}");
}

#[test]
fn a_text_is_shown_in_full() {
    let beginnings = ["operation   typing a pattern", "text        ", "as typed    ", "destination "];
    let shown = shown_of(Operation::Typing, beginnings);
    assert!(
        !shown.lines().any(|line| line.starts_with("pattern") || line.starts_with("proposal")),
        "{shown}"
    );
}

#[test]
fn a_run_that_is_too_short_says_what_never_occurred() {
    let output = run(DIFFERENTIAL, &["--count", "10"]);
    assert_eq!(output.status.code(), Some(1));
    assert!(text(&output.stdout).contains("10  inputs"));
    assert!(text(&output.stderr).contains("never occurred: refusal"));
}

#[test]
fn a_program_that_is_missing_is_named() {
    let output = run(PROGRAMS, &["no/such/program"]);
    assert_eq!(output.status.code(), Some(1));
    assert!(text(&output.stderr).starts_with("programs: no/such/program: "));
}

#[test]
fn a_program_that_prints_something_else_fails() {
    let output = run(PROGRAMS, &[OTHER]);
    assert_eq!(output.status.code(), Some(1));
    assert!(text(&output.stderr).contains("pattern.bin missing, proposal.bin missing"));
}

#[test]
fn a_typist_that_prints_something_else_fails() {
    let output = run(PROGRAMS, &["--typist", OTHER]);
    assert_eq!(output.status.code(), Some(1));
    let said = text(&output.stdout);
    assert!(said.starts_with("programs: 600 texts generated, 279 odd ones, 7 in pieces, 1 "), "{said}");
    assert!(said.ends_with("programs: 887 texts, 887 typed otherwise than expected\n"), "{said}");
    assert!(text(&output.stderr).contains("programs: no text: "));
    let missing = run(PROGRAMS, &["--typist", "no/such/program"]);
    assert!(text(&missing.stderr).starts_with("programs: no/such/program: "));
}

#[test]
fn samples_are_counted_and_taken_by_name() {
    let samples = std::env::temp_dir().join(format!("riser-samples-{}", std::process::id()));
    let names = ["c", "a", "d", "b"];
    names.iter().for_each(|name| fs::create_dir_all(samples.join(name)).expect("a directory"));
    let output = run(PROGRAMS, &[OTHER.as_ref(), samples.as_os_str()]);
    let shut = samples.join("shut");
    fs::write(&shut, b"").expect("a new file");
    fs::set_permissions(&shut, Permissions::from_mode(0o000)).expect("new permissions");
    let opens = fs::File::open(&shut).is_ok();
    fs::remove_dir_all(&samples).expect("the directory goes");

    let (said, wrong) = (text(&output.stdout), text(&output.stderr));
    let counts = "programs: 300 pairs generated, 135 of odd files, 4 samples\n";
    assert!(said.starts_with(counts), "{said}");
    assert!(said.contains("programs: 439 pairs of files, 439 judged otherwise than expected\n"), "{said}");
    assert_eq!(said.contains("run as root"), opens, "{said}");
    let at =
        |name| wrong.find(&format!("{}: ", samples.join(name).display())).expect("every sample is wrong");
    assert!(["a", "b", "c", "d"].map(at).is_sorted());
}
