//! The subcommands, a file each. A further one is its file and its row here.

mod explain;
mod judge;
mod order;
mod plan;
mod typing;

use crate::arguments::{Opt, Takes};
use crate::command::Command;

/// In the order in which they are listed.
pub const COMMANDS: [&Command; 5] =
    [&judge::JUDGE, &explain::EXPLAIN, &typing::TYPE, &plan::PLAN, &order::ORDER];

/// The proposal that is written, and its name if none is said.
const UNNAMED: &str = "proposal.bin";
const PROPOSAL: Opt =
    Opt { name: "-o", takes: Takes::Output, help: "write FILE, not proposal.bin, whole or not at all" };
