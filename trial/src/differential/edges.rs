//! An edge record and the one before it: what an input shows of the order that edges must have.

use super::limits::{Judged, Limit};
use crate::generate::input::Never;
use std::cmp::Ordering::{self, Equal, Greater, Less};

pub const EDGES: [Limit; 24] = [
    ("repeat of the edge before refused 28", |it| it.falls([Equal; 3])),
    ("edge with a lower to alone refused 28", |it| it.falls([Equal, Equal, Less])),
    ("edge with a lower axis alone refused 28", |it| it.falls([Equal, Less, Equal])),
    ("edge with a lower axis, lower to refused 28", |it| it.falls([Equal, Less, Less])),
    ("edge with a lower axis, higher to refused 28", |it| it.falls([Equal, Less, Greater])),
    ("edge with a lower from alone refused 28", |it| it.falls([Less, Equal, Equal])),
    ("edge with a lower from, axis and to refused 28", |it| it.falls([Less; 3])),
    ("edge with a lower from, higher axis and to refused 28", |it| it.falls([Less, Greater, Greater])),
    ("edge with a higher to alone judged", |it| it.rises([Equal, Equal, Greater])),
    ("edge with a higher axis alone judged", |it| it.rises([Equal, Greater, Equal])),
    ("edge with a higher axis, lower to judged", |it| it.rises([Equal, Greater, Less])),
    ("edge with a higher from alone judged", |it| it.rises([Greater, Equal, Equal])),
    ("edge with a higher from, lower axis and to judged", |it| it.rises([Greater, Less, Less])),
    ("first edge from 0 to 0 on axis 0 judged", |it| it.found() && it.edges().first() == Some(&[0; 3])),
    ("edge record 1 refused 28", |it| it.place(28) == Some(1)),
    ("edge record 4,095 refused 28", |it| it.place(28) == Some(4095)),
    ("edge that comes after record 0 refused 28", |it| {
        it.place(28).is_some_and(|place| it.edges()[place] > it.edges()[0])
    }),
    ("repeat of an edge further before refused 28", |it| {
        it.place(28).is_some_and(|place| it.edges()[..place - 1].contains(&it.edges()[place]))
    }),
    ("edge refused 28 before one that is out of range", |it| {
        it.place(28).is_some_and(|place| it.edges()[place..].iter().any(|edge| it.out_of_range(edge)))
    }),
    ("edge refused 14 before one that doesn't rise", |it| {
        it.place(14).is_some_and(|place| !it.edges()[place + 1..].is_sorted_by(|one, next| one < next))
    }),
    ("edge refused 14 that doesn't rise either", |it| {
        it.place(14).is_some_and(|place| place > 0 && it.edges()[place] <= it.edges()[place - 1])
    }),
    ("edge refused 28 where a name is missing too", |it| it.refused(28) && it.missing() != 0),
    ("name record refused 13 where an edge doesn't rise either", |it| {
        it.name_refused().is_some() && !it.edges().is_sorted_by(|one, next| one < next)
    }),
    ("pattern with a closed tableau refused 28", |it| it.refused(28) && it.input.never == Some(Never::Met)),
];

impl Judged<'_> {
    /// Whether an edge was refused 28 whose fields compare so with those of the edge before it.
    fn falls(&self, wanted: [Ordering; 3]) -> bool {
        self.place(28).is_some_and(|place| compared(&self.edges()[place - 1..]) == wanted)
    }

    /// Whether a model was judged with an edge whose fields compare so with those of the edge before it.
    fn rises(&self, wanted: [Ordering; 3]) -> bool {
        self.found() && self.edges().windows(2).any(|pair| compared(pair) == wanted)
    }

    fn out_of_range(&self, &[from, axis, to]: &[u8; 3]) -> bool {
        from >= self.nodes() || axis > 7 || to >= self.nodes()
    }
}

/// How the second edge's from, axis and to compare with the first's.
pub fn compared(edges: &[[u8; 3]]) -> [Ordering; 3] {
    [0, 1, 2].map(|field| edges[1][field].cmp(&edges[0][field]))
}
