//! The tool run: what it prints, how it ends, and what it reads on standard input.

use std::ffi::OsStr;
use std::io::Write;
use std::process::{Command, Output, Stdio};

pub const RISER: &str = env!("CARGO_BIN_EXE_riser");

/// Runs `riser` with these words behind it.
pub fn run(words: &[impl AsRef<OsStr>]) -> Output {
    Command::new(RISER).args(words).stdin(Stdio::null()).output().expect("the tool runs")
}

/// The same with these bytes on standard input.
pub fn run_fed(words: &[&OsStr], input: &[u8]) -> Output {
    let mut command = Command::new(RISER);
    command.args(words).stdin(Stdio::piped()).stdout(Stdio::piped()).stderr(Stdio::piped());
    let mut child = command.spawn().expect("the tool can be started");
    let _ = child.stdin.take().expect("a pipe").write_all(input);
    child.wait_with_output().expect("the tool ends")
}

/// What was printed.
pub fn printed(bytes: &[u8]) -> String {
    String::from_utf8_lossy(bytes).into_owned()
}

/// Checks that it ends with this status, having printed this and no message.
pub fn check_said(output: &Output, status: i32, said: &str) {
    assert_eq!(printed(&output.stderr), "");
    assert_eq!((output.status.code(), printed(&output.stdout)), (Some(status), format!("{said}\n")));
}

/// Checks that it ends with status 0, having printed this and no message.
pub fn check_success(output: &Output, said: &str) {
    check_said(output, 0, said);
}

/// Checks that it ends with this status and message, having printed nothing.
pub fn check_failure(output: &Output, status: i32, message: &str) {
    assert_eq!(printed(&output.stderr), format!("{message}\n"));
    assert_eq!((output.status.code(), printed(&output.stdout)), (Some(status), String::new()));
}

/// Checks that arguments aren't understood: why, and then the usage.
pub fn check_usage(output: &Output, why: &str, usage: &str) {
    let message = printed(&output.stderr);
    assert_eq!((output.status.code(), printed(&output.stdout)), (Some(3), String::new()), "{message}");
    assert!(message.starts_with(&format!("{why}\nusage: {usage}\n`riser help")), "{message}");
}
