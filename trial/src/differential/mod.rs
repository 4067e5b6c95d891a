//! The proved library compared with other implementations on generated inputs: finding, place, counts
//! and every byte of the area or the destination.
//!
//! `run` takes the inputs in turn; `compare` runs each by every `implementation` in `guarded` memory, and
//! `fault` names it if it is left; `tally` counts what occurred (`limits` says which limits an input
//! shows, `areas` what it shows of the working area that a model wants, `names` of the pattern's names, `edges` of the
//! order of a model's edges, `fresh` of the names that a tableau asks for, `slots` of entries that share one, `rows` of
//! paths that lose theirs, `ends` of where paths lead, `either` of either and its rules, `older` of older models, `typing`
//! of typed patterns; `situations` has them all, and `grids` those of numbers and wrong bytes in a text), `missing` what
//! never did or too seldom, and `table` prints it; `report` shows one input in full. `composed` says what a typed pattern
//! means by its text alone.

mod areas;
pub mod compare;
mod composed;
mod edges;
mod either;
mod ends;
pub mod fault;
mod fresh;
mod grids;
pub mod guarded;
pub mod implementation;
mod limits;
mod missing;
mod names;
mod older;
pub mod report;
mod rows;
pub mod run;
mod situations;
mod slots;
mod table;
pub mod tally;
mod typing;
