//! `riser judge`: what the unit finds of a pattern and a proposal.

use crate::agreed;
use crate::arguments::{Arguments, TEXT, TEXT_FILE};
use crate::command::{Command, Failure, Status};
use crate::files::{self, source::Given};
use crate::output;
use oracle::explain::Conclusion;

pub const JUDGE: Command = Command {
    name: "judge",
    summary: "where a pattern occurs in a block, or whether a tableau rules it out",
    usage: "riser judge (PATTERN | -e TEXT | --text FILE) PROPOSAL",
    about: "\
Judges PROPOSAL, a tableau if it begins TAB, else a block (a model), and prints
the finding as the bench program does, then what it says.
",
    options: &[TEXT, TEXT_FILE],
    examples: "\
Example: where do forward and reverse setting have different pulse weights?

  riser judge -e '[/0#0/1]' block.bin
",
    run,
};

fn run(arguments: &Arguments) -> Result<Status, Failure> {
    let (source, [file]) = arguments.pattern_and(["proposal"])?;
    let conclusion = match source.read()? {
        Given::Pattern(pattern) => agreed::explained(&pattern, &files::read(file)?)?.conclusion,
        Given::Refused { conclusion, .. } => conclusion,
    };
    output::print(in_lines(&conclusion))?;
    Ok(Status::of(conclusion.finding))
}

/// The finding in a line of its own, and what it says.
pub fn in_lines(conclusion: &Conclusion) -> String {
    format!("{}\n{}\n", conclusion.finding, conclusion.words())
}
