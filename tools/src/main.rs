//! `riser`, the tool of the bench terminal.

use std::process::ExitCode;

fn main() -> ExitCode {
    tools::riser::start(std::env::args_os().skip(1).collect())
}
