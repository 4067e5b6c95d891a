//! The bench terminal: `riser`, one tool over the proved library. No part of the unit.
//!
//! - `riser` takes the arguments to a subcommand, of which `commands` has one file each; `command` says what one is and
//!   how it ends, `arguments` how its arguments are read, `similar` what a mistyped word may have meant;
//! - `agreed` asks the proved library and the independent implementation, which must find the same;
//! - `files` reads patterns, typed or not, and proposals, and writes a file whole or not at all;
//! - `page` draws a judgement as one HTML page;
//! - `output` and `progress` are for the tools of `trial` too.

pub mod agreed;
mod arguments;
mod command;
mod commands;
pub mod files;
pub mod output;
pub mod page;
pub mod progress;
pub mod riser;
mod similar;
