//! What a subcommand is, and how one ends.

use crate::arguments::{Arguments, Opt};
use oracle::explain::Conclusion;
use oracle::finding::Finding;

/// A subcommand of `riser`.
pub struct Command {
    pub name: &'static str,
    /// What it does, in the list of subcommands.
    pub summary: &'static str,
    /// Its arguments.
    pub usage: &'static str,
    /// What it does, in its help.
    pub about: &'static str,
    pub options: &'static [Opt],
    pub examples: &'static str,
    pub run: fn(&Arguments) -> Result<Status, Failure>,
}

/// The exit status, the same for all subcommands.
#[derive(Clone, Copy, Debug, PartialEq, Eq)]
pub enum Status {
    /// Met or closed; or the file that was asked for is written.
    Found = 0,
    /// Unmet; or nothing was found within a budget.
    Unmet = 1,
    /// Refused, with a number and a place.
    Refused = 2,
    /// The arguments aren't understood, or a file can't be read or written.
    Unusable = 3,
    /// The proved library and the independent implementation differ.
    Differing = 4,
}

impl Status {
    pub fn of(finding: Finding) -> Status {
        match finding {
            Finding::Unmet => Status::Unmet,
            Finding::Refused(_) => Status::Refused,
            _ => Status::Found,
        }
    }
}

/// Why what was asked for isn't there, for standard error.
#[derive(Clone, Debug, PartialEq, Eq)]
pub struct Failure {
    pub status: Status,
    pub message: String,
    /// Whether the arguments are at fault, so that the usage helps.
    pub of_usage: bool,
}

impl Failure {
    pub fn new(status: Status, message: String) -> Failure {
        Failure { status, message, of_usage: false }
    }

    /// Arguments that aren't understood.
    pub fn usage(message: impl Into<String>) -> Failure {
        Failure { of_usage: true, ..Failure::new(Status::Unusable, message.into()) }
    }

    /// A file that isn't written, because something of that name is refused.
    pub fn refused(name: &str, conclusion: &Conclusion) -> Failure {
        let message = format!("{name}: {}.{}", conclusion.line(), conclusion.below());
        Failure::new(Status::Refused, message)
    }
}

/// A message about a file or about standard output.
impl From<String> for Failure {
    fn from(message: String) -> Failure {
        Failure::new(Status::Unusable, message)
    }
}
