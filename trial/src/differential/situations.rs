//! The situations that a run must see, table by table.

use super::areas::{AREAS, WANTED};
use super::edges::EDGES;
use super::either::{ENTRIES, MEANING, RULES};
use super::ends::ENDS;
use super::fresh::FRESH;
use super::limits::{LIMITS, Limit};
use super::names::NAMES;
use super::older::{JUDGED_OLD, ORDERED};
use super::rows::ROWS;
use super::slots::SHARED;
use super::typing::{COMPLETED, JUDGED_TEXT, REFUSED};
use crate::generate::input::Operation;

/// Situations of one sort: the heading of their table, the words before one that is missing, the operations whose
/// inputs can show them, and which of those show each.
pub struct Situations {
    pub heading: &'static str,
    pub sort: &'static str,
    pub of: &'static [Operation],
    pub shown: &'static [Limit],
}

const READING: &[Operation] = &[Operation::Reading];
const MODEL: &[Operation] = &[Operation::Model];
const TABLEAU: &[Operation] = &[Operation::Tableau];
const TYPING: &[Operation] = &[Operation::Typing];

pub const SITUATIONS: [Situations; 17] = [
    Situations {
        heading: "limits",
        sort: "limit",
        of: &[Operation::Reading, Operation::Model, Operation::Tableau],
        shown: &LIMITS,
    },
    Situations {
        heading: "names that the pattern uses and those that the model lists",
        sort: "names",
        of: MODEL,
        shown: &NAMES,
    },
    Situations {
        heading: "working areas for judging a model, and the bytes that it wants",
        sort: "areas",
        of: MODEL,
        shown: &AREAS,
    },
    Situations {
        heading: "bytes of working area that a pattern wants",
        sort: "areas wanted",
        of: &[Operation::Area],
        shown: &WANTED,
    },
    Situations {
        heading: "edge records and the records before them",
        sort: "edges",
        of: MODEL,
        shown: &EDGES,
    },
    Situations {
        heading: "paths and the slots of their rows, values and their buckets",
        sort: "rows",
        of: MODEL,
        shown: &ROWS,
    },
    Situations {
        heading: "neighbouring nodes, and ends of two paths",
        sort: "ends",
        of: MODEL,
        shown: &ENDS,
    },
    Situations { heading: "start names and fresh names", sort: "fresh names", of: TABLEAU, shown: &FRESH },
    Situations {
        heading: "entries that share a slot, and repeats",
        sort: "slots",
        of: READING,
        shown: &SHARED,
    },
    Situations { heading: "entries of either", sort: "either", of: &Operation::OF_PATTERNS, shown: &ENTRIES },
    Situations {
        heading: "either in models: what the root reaches, and where its parts hold",
        sort: "either in a model",
        of: MODEL,
        shown: &MEANING,
    },
    Situations {
        heading: "either in tableaux: rules 24 and 25",
        sort: "either in a tableau",
        of: TABLEAU,
        shown: &RULES,
    },
    Situations {
        heading: "older models put in order, and their destinations",
        sort: "older models",
        of: &[Operation::Ordering],
        shown: &ORDERED,
    },
    Situations {
        heading: "older models judged when put in order",
        sort: "older models judged",
        of: &[Operation::Ordered],
        shown: &JUDGED_OLD,
    },
    Situations {
        heading: "texts refused, and destinations of pattern files",
        sort: "texts refused",
        of: TYPING,
        shown: &REFUSED,
    },
    Situations {
        heading: "texts written as pattern files",
        sort: "texts written",
        of: TYPING,
        shown: &COMPLETED,
    },
    Situations {
        heading: "models judged of typed patterns",
        sort: "texts judged",
        of: &[Operation::Typed],
        shown: &JUDGED_TEXT,
    },
];
