//! Running `riser`, and files for it.

pub mod directory;
pub mod output;
pub mod tool;
