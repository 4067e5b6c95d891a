//! The proved library against other implementations of documents 01 and 02.

pub mod benchmark;
pub mod differential;
pub mod ending;
pub mod fast;
pub mod generate;
pub mod programs;
