//! The tool `riser`, run as a person at the terminal runs it.

#[path = "../../../oracle/tests/common/mod.rs"]
mod files;

mod common;
mod explain;
mod help;
mod judge;
mod order;
mod output;
mod plan;
mod readme;
mod target;
mod typed;
mod typing;
mod unusable;
