//! The benchmark: the proved library against the independent implementation and the one written for speed, on
//! the same inputs in the same run. Before an input is timed, all three must give the same finding and area.
//!
//! - `inputs` has the cases, `growth` the series;
//! - `judge` puts the implementations behind one form, `timing` times them, `stack` measures their stack;
//! - `report` makes the tables.

pub mod case;
mod growth;
pub mod inputs;
pub mod judge;
mod report;
mod stack;
mod timing;

use inputs::{models, older, tableaux, texts};
use report::Lines;

/// Begins the tables of a group.
type Tables = fn() -> Lines;

/// The groups of tables, by name.
pub const GROUPS: [(&str, Tables); 7] = [
    ("reading", || report::ratios("reading", inputs::readings())),
    ("model", || report::ratios("model", models::cases())),
    ("tableau", || report::ratios("tableau", tableaux::cases())),
    ("ordering", || report::ratios("ordering", older::cases())),
    ("typing", || report::ratios("typing", texts::cases())),
    ("growth", || report::growths(growth::all())),
    ("stack", || report::stacks(inputs::deepest())),
];
