//! How a trial ends.

use std::process::ExitCode;
use tools::output::complain;

/// The exit status of a trial: 0 if it passed; else 1, with the message if there is one.
pub fn status(tool: &str, passed: Result<bool, String>) -> ExitCode {
    match passed {
        Ok(true) => ExitCode::SUCCESS,
        Ok(false) => ExitCode::FAILURE,
        Err(message) => {
            complain(&format!("{tool}: {message}"));
            ExitCode::FAILURE
        }
    }
}
