//! Older models: what an input shows of putting one in order, and of judging it then.

use super::areas::SET;
use super::edges::compared;
use super::limits::{Judged, Limit};
use crate::generate::input::Never;
use oracle::finding::Finding;
use oracle::model;
use std::cmp::Ordering::{self, Equal, Greater, Less};

pub const ORDERED: [Limit; 39] = [
    ("destination as long as the new file, written", |it| it.destination_over(0)),
    ("destination one longer than the new file, written", |it| it.destination_over(1)),
    ("destination between the new and the old file, written", |it| {
        it.length().is_some_and(|new| (new + 1..it.input.proposal.len()).contains(&it.input.area.length))
    }),
    ("destination as long as the new file and shorter than the old, written", |it| {
        it.destination_over(0) && it.drops()
    }),
    ("destination as long as the old file, longer than the new, written", |it| {
        it.drops() && it.input.area.length == it.input.proposal.len()
    }),
    ("destination longer than the old file, repeats dropped", |it| {
        it.drops() && it.input.area.length > it.input.proposal.len()
    }),
    ("destination one short refused 29", |it| it.one_short().is_some()),
    ("destination one short of a new file shorter than the old refused 29", |it| {
        it.one_short().is_some_and(|new| new < it.input.proposal.len())
    }),
    ("destination one short of a file in order refused 29", |it| it.one_short().is_some() && it.rise()),
    ("no destination refused 29", |it| it.refused(29) && it.input.area.length == 0),
    ("destination shorter than the header refused 29", |it| {
        it.refused(29) && (1..9).contains(&it.input.area.length)
    }),
    ("13,321 bytes written", |it| it.length() == Some(13_321)),
    ("destination of 13,320 bytes refused 29", |it| it.one_short() == Some(13_321)),
    ("model in order written as it is", |it| it.written() && it.rise() && it.edges().len() > 1),
    ("model without edges written", |it| it.written() && it.edges().is_empty()),
    ("edges out of order written, none repeated", |it| it.keeps() && !it.rise()),
    ("edges that don't fall written, repeats dropped", |it| it.drops() && it.edges().is_sorted()),
    ("edges out of order written, repeats dropped", |it| it.drops() && !it.edges().is_sorted()),
    ("repeat right behind an edge dropped", |it| it.has_neighbours([Equal; 3])),
    ("repeats that never stand side by side dropped", |it| it.drops() && !it.has_neighbours([Equal; 3])),
    ("edge three times in a row written once", |it| {
        it.written() && it.edges().windows(3).any(|row| row[0] == row[1] && row[1] == row[2])
    }),
    ("every edge repeated", |it| it.drops() && it.every_edge_repeats()),
    ("4,096 edges out of order written, none repeated", |it| {
        it.keeps() && !it.rise() && it.edges().len() == 4096
    }),
    ("4,096 edges written, repeats dropped", |it| it.drops() && it.edges().len() == 4096),
    ("more than 255 repeats dropped", |it| {
        it.length().is_some_and(|new| new + 3 * 255 < it.input.proposal.len())
    }),
    ("edge with a lower to alone written", |it| it.has_neighbours([Equal, Equal, Less])),
    ("edge with a lower axis alone written", |it| it.has_neighbours([Equal, Less, Equal])),
    ("edge with a lower axis, higher to written", |it| it.has_neighbours([Equal, Less, Greater])),
    ("edge with a lower from alone written", |it| it.has_neighbours([Less, Equal, Equal])),
    ("edge with a lower from, higher axis and to written", |it| it.has_neighbours([Less, Greater, Greater])),
    ("first edge from 0 to 0 on axis 0 behind others", |it| {
        it.written() && it.edges().first() != Some(&[0; 3]) && it.edges().contains(&[0; 3])
    }),
    ("edge from node 63 to node 63 on axis 7 before others", |it| {
        it.written() && it.edges().last() != Some(&[63, 7, 63]) && it.edges().contains(&[63, 7, 63])
    }),
    ("names that don't rise written", |it| it.written() && !it.names().is_sorted()),
    ("4,097 edges refused 12", |it| it.counts_refused() && it.count(7) == 4097),
    ("name record refused 13 where edges don't rise", |it| it.name_refused().is_some() && !it.rise()),
    ("edge refused 14 behind one that doesn't rise", |it| it.refused_behind_a_fall()),
    ("edge record 4,095 refused 14", |it| it.place(14) == Some(4095)),
    ("edge refused 14 where the destination is too short", |it| it.refused(14) && it.input.area.length < 9),
    ("name record refused 13 where the destination is too short", |it| {
        it.refused(13) && it.input.area.length < 9
    }),
];

pub const JUDGED_OLD: [Limit; 14] = [
    ("met, edges out of order", |it| it.met() && !it.edges().is_sorted()),
    ("unmet, edges out of order", |it| it.finding == Finding::Unmet && !it.edges().is_sorted()),
    ("met, edges that don't fall, repeats", |it| it.met() && !it.rise() && it.edges().is_sorted()),
    ("met, edges in order", |it| it.met() && it.rise() && it.edges().len() > 1),
    ("met, names used", |it| it.met() && it.used() != 0),
    ("name refused 27, edges out of order", |it| it.refused(27) && !it.rise()),
    ("edge refused 14 behind one that doesn't rise", |it| it.refused_behind_a_fall()),
    ("edge refused 14 where a name is missing too", |it| it.refused(14) && it.missing() != 0),
    ("found in as many bytes as wanted, edges out of order", |it| it.found_over(0) && !it.rise()),
    ("found in a byte more than wanted, edges out of order", |it| it.found_over(1) && !it.rise()),
    ("found in 2,040 bytes, fewer wanted, edges out of order", |it| {
        it.found_in_more_than_enough() && !it.rise()
    }),
    ("refused 9 in a byte less than wanted", |it| it.short_by(1)),
    ("refused 9 in a set less than wanted", |it| it.short_by(SET)),
    ("pattern with a closed tableau unmet, edges out of order", |it| {
        it.finding == Finding::Unmet && it.input.never == Some(Never::Met) && !it.rise()
    }),
];

impl Judged<'_> {
    /// The length of the file that was written.
    pub(super) fn length(&self) -> Option<usize> {
        match self.finding {
            Finding::Written { length } => Some(length.into()),
            _ => None,
        }
    }

    pub(super) fn written(&self) -> bool {
        self.length().is_some()
    }

    /// Whether a new file was written that is shorter than the old one.
    fn drops(&self) -> bool {
        self.length().is_some_and(|length| length < self.input.proposal.len())
    }

    /// Whether a new file was written that is as long as the old one.
    fn keeps(&self) -> bool {
        self.length() == Some(self.input.proposal.len())
    }

    /// Whether a file was written to a destination that is so much longer.
    pub(super) fn destination_over(&self, by: usize) -> bool {
        self.length().is_some_and(|length| length + by == self.input.area.length)
    }

    /// The length of a new file that was refused 29 for one byte.
    fn one_short(&self) -> Option<usize> {
        let new = || model::in_order(&self.input.proposal).expect("its checks passed").len();
        self.refused(29).then(new).filter(|&length| length == self.input.area.length + 1)
    }

    pub(super) fn met(&self) -> bool {
        matches!(self.finding, Finding::Met { .. })
    }

    /// Whether the edges rise as Job 3 has it.
    fn rise(&self) -> bool {
        self.edges().is_sorted_by(|one, next| one < next)
    }

    /// Whether a model was written that has an edge whose fields compare so with those of the edge before it.
    fn has_neighbours(&self, wanted: [Ordering; 3]) -> bool {
        self.written() && self.edges().windows(2).any(|pair| compared(pair) == wanted)
    }

    fn every_edge_repeats(&self) -> bool {
        let mut edges = self.edges().to_vec();
        edges.sort_unstable();
        edges.chunk_by(|one, next| one == next).all(|equal| equal.len() > 1)
    }

    /// Whether an edge was refused 14 where 28 would be given of an earlier one.
    fn refused_behind_a_fall(&self) -> bool {
        self.place(14).is_some_and(|place| !self.edges()[..place].is_sorted_by(|one, next| one < next))
    }
}
