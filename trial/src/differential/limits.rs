//! Document 01's limits, reached exactly and overstepped by one: which of them an input shows.

use super::either::Parts;
use super::ends::Led;
use super::fresh::{Brought, Had};
use super::rows::Kept;
use super::typing;
use crate::generate::input::{Input, Operation};
use oracle::finding::Finding;
use oracle::pattern;
use oracle::tableau::rules::{brings_name, says_clash, says_fork};
use oracle::tableau::{self, HEADER_BYTES, STEP_BYTES};

/// A limit in words, and whether an input with its finding shows it.
pub type Limit = (&'static str, fn(&Judged) -> bool);

/// An input with its finding, and what that says of names that a tableau asks for, of the paths of a pattern whose model
/// is judged, and of a text.
pub struct Judged<'a> {
    pub input: &'a Input,
    pub finding: Finding,
    pub(super) had: Option<Had>,
    pub(super) brought: Brought,
    pub(super) paths: Option<Kept>,
    pub(super) led: Option<Led>,
    pub(super) parts: Vec<Parts>,
    /// The entries that were written of a text.
    pub(super) typed: Vec<[u8; 4]>,
}

pub const LIMITS: [Limit; 51] = [
    ("255 entries read", |it| it.finding == Finding::Read { entries: 255 }),
    ("no entry refused 3", |it| it.refused(3) && it.input.pattern[5] == 0),
    ("pattern over 65,535 bytes refused 3", |it| it.refused(3) && it.input.pattern.len() > 65_535),
    ("property 31 read", |it| it.read([1, 31])),
    ("property 32 refused 5", |it| it.entry_refused(5) == Some([1, 32])),
    ("name 127 read", |it| it.read([2, 127])),
    ("name 128 refused 5", |it| it.entry_refused(5) == Some([2, 128])),
    ("after on axis 7 read", |it| it.read([5, 7])),
    ("after on axis 8 refused 5", |it| it.entry_refused(5) == Some([5, 8])),
    ("same on channel 3 read", |it| it.read([6, 3])),
    ("same on channel 4 refused 5", |it| it.entry_refused(5) == Some([6, 4])),
    ("differ on channel 3 read", |it| it.read([7, 3])),
    ("differ on channel 4 refused 5", |it| it.entry_refused(5) == Some([7, 4])),
    ("step on axis 7 read", |it| it.read([8, 7])),
    ("step on axis 8 refused 5", |it| it.entry_refused(5) == Some([8, 8])),
    ("jump to name 127 read", |it| it.read([9, 127])),
    ("jump to name 128 refused 5", |it| it.entry_refused(5) == Some([9, 128])),
    ("64 nodes judged", |it| it.found() && it.nodes() == 64),
    ("65 nodes refused 12", |it| it.counts_refused() && it.nodes() == 65),
    ("no node refused 12", |it| it.counts_refused() && it.nodes() == 0),
    ("128 names judged", |it| it.found() && it.names().len() == 128),
    ("129 names refused 12", |it| it.counts_refused() && it.input.proposal[6] == 129),
    ("4,096 edges judged", |it| it.found() && it.count(7) == 4096),
    ("4,097 edges refused 12", |it| it.counts_refused() && it.count(7) == 4097),
    ("model over 65,535 bytes refused 12", |it| it.refused(12) && it.input.proposal.len() > 65_535),
    ("name 127 listed", |it| it.found() && it.names().any(|name| name[0] == 127)),
    ("name 128 refused 13", |it| it.name_refused().is_some_and(|name| name[0] == 128)),
    ("name of the last node listed", |it| it.found() && it.names().any(|name| name[1] + 1 == it.nodes())),
    ("name of a node one over refused 13", |it| it.name_refused().is_some_and(|name| name[1] == it.nodes())),
    ("edge on axis 7 judged", |it| it.found() && it.edges().iter().any(|edge| edge[1] == 7)),
    ("edge on axis 8 refused 14", |it| it.edge_refused().is_some_and(|edge| edge[1] == 8)),
    ("edge from a node one over refused 14", |it| {
        it.edge_refused().is_some_and(|edge| edge[0] == it.nodes())
    }),
    ("edge to a node one over refused 14", |it| it.edge_refused().is_some_and(|edge| edge[2] == it.nodes())),
    ("start name 127 closed", |it| it.closed() && it.input.proposal[5] == 127),
    ("start name 128 refused 18", |it| it.refused(18) && it.input.proposal[5] == 128),
    ("4,096 steps closed", |it| it.closed() && it.count(6) == 4096),
    ("4,097 steps refused 17", |it| it.step_count_refused() && it.count(6) == 4097),
    ("no step refused 17", |it| it.step_count_refused() && it.count(6) == 0),
    ("tableau over 65,535 bytes refused 17", |it| it.refused(17) && it.input.proposal.len() > 65_535),
    ("1,024 lines closed", |it| matches!(it.finding, Finding::Closed { most: 1024, .. })),
    ("one line over refused 23", |it| it.step_refused(23).is_some_and(|step| step[0] == 1)),
    ("two lines over refused 23", |it| it.step_refused(23).is_some_and(|step| step[0] == 2)),
    ("fork over the lines refused 23", |it| it.step_refused(23).is_some_and(|step| says_fork(step[0]))),
    ("64 right sides waiting, closed", |it| it.closed() && it.most_waiting() == 64),
    ("65th right side refused 24", |it| it.refused(24)),
    ("fresh name 127 closed", |it| it.closed() && it.steps().any(|step| brings(step, 127))),
    ("fresh name 128 refused 21", |it| it.one_too_high(|step| brings(step, 128))),
    ("rule 18 with channel 3 closed", |it| {
        it.closed() && it.steps().any(|step| step[0] == 18 && step[5] == 3)
    }),
    ("rule 18 with channel 4 refused 21", |it| it.one_too_high(|step| step[0] == 18 && step[5] == 4)),
    ("tableau in 8,192 bytes of area", |it| it.closed() && it.input.area.length == 8192),
    ("tableau in 8,191 bytes refused 9", |it| {
        it.refused(9) && it.input.operation == Operation::Tableau && it.input.area.length == 8191
    }),
];

/// Whether the step brings this name.
fn brings(step: &[u8], name: u8) -> bool {
    brings_name(step[0]) && step[5] == name
}

impl<'a> Judged<'a> {
    pub fn new(input: &'a Input, finding: Finding) -> Judged<'a> {
        let (had, brought) = (Had::of(input, finding), Brought::of(input, finding));
        let paths = Kept::of(input, finding);
        let led = paths.as_ref().map(|kept| Led::of(input, kept));
        let parts = paths.as_ref().map_or_else(Vec::new, |kept| Parts::of(input, kept));
        let typed = typing::entries_of(input, finding);
        Judged { input, finding, had, brought, paths, led, parts, typed }
    }

    pub(super) fn refused(&self, number: u16) -> bool {
        self.place(number).is_some()
    }

    /// The place of a refusal with this number.
    pub(super) fn place(&self, wanted: u16) -> Option<usize> {
        match self.finding {
            Finding::Refused(refusal) if refusal.number == wanted => Some(refusal.place as usize),
            _ => None,
        }
    }

    /// Whether a model was found met or unmet.
    pub(super) fn found(&self) -> bool {
        matches!(self.finding, Finding::Met { .. } | Finding::Unmet)
    }

    pub(super) fn closed(&self) -> bool {
        matches!(self.finding, Finding::Closed { .. })
    }

    /// Whether a pattern was read with an entry of this kind and first field.
    fn read(&self, wanted: [u8; 2]) -> bool {
        let mut entries = self.input.pattern.get(6..).unwrap_or_default().chunks_exact(4);
        matches!(self.finding, Finding::Read { .. }) && entries.any(|entry| entry[..2] == wanted)
    }

    /// The kind and first field of the entry that was refused with this number.
    pub(super) fn entry_refused(&self, number: u16) -> Option<[u8; 2]> {
        let entry = 6 + 4 * self.place(number)?;
        Some([self.input.pattern[entry], self.input.pattern[entry + 1]])
    }

    /// The 16-bit count that stands at this place of the proposal.
    pub(super) fn count(&self, at: usize) -> u16 {
        u16::from_le_bytes([self.input.proposal[at], self.input.proposal[at + 1]])
    }

    /// Whether a model was refused 12 though it has the length that its counts make.
    pub(super) fn counts_refused(&self) -> bool {
        let length = || {
            let [nodes, names] = [self.nodes(), self.input.proposal[6]].map(usize::from);
            9 + 12 * nodes + 2 * names + 3 * self.count(7) as usize
        };
        self.refused(12) && self.input.proposal.len() == length()
    }

    /// Whether a tableau was refused 17 though it has the length that its count makes.
    fn step_count_refused(&self) -> bool {
        let length = || HEADER_BYTES + STEP_BYTES * self.count(6) as usize;
        self.refused(17) && self.input.proposal.len() == length()
    }

    pub(super) fn nodes(&self) -> u8 {
        self.input.proposal[5]
    }

    pub(super) fn names(&self) -> std::slice::ChunksExact<'a, u8> {
        let first = 9 + 12 * self.nodes() as usize;
        self.input.proposal[first..][..2 * self.input.proposal[6] as usize].chunks_exact(2)
    }

    pub(super) fn edges(&self) -> &'a [[u8; 3]] {
        let first = 9 + 12 * self.nodes() as usize + 2 * self.input.proposal[6] as usize;
        self.input.proposal[first..].as_chunks().0
    }

    pub(super) fn steps(&self) -> std::slice::ChunksExact<'a, u8> {
        self.input.proposal[HEADER_BYTES..].chunks_exact(STEP_BYTES)
    }

    pub(super) fn name_refused(&self) -> Option<&'a [u8]> {
        self.place(13).and_then(|place| self.names().nth(place))
    }

    fn edge_refused(&self) -> Option<&'a [u8; 3]> {
        self.place(14).map(|place| &self.edges()[place])
    }

    /// The step that was refused with this number.
    pub(super) fn step_refused(&self, number: u16) -> Option<&'a [u8]> {
        self.place(number).and_then(|place| self.steps().nth(place))
    }

    /// Whether such a step was refused 21 and would be accepted with an argument one lower.
    fn one_too_high(&self, is_such: fn(&[u8]) -> bool) -> bool {
        self.step_refused(21).is_some_and(is_such)
            && self.place(21).is_some_and(|place| self.passes_one_lower(place))
    }

    /// Whether a step that was walked to isn't refused with an argument one lower.
    fn passes_one_lower(&self, place: usize) -> bool {
        let pattern = pattern::parse(&self.input.pattern).expect("it was read");
        let mut tableau = tableau::parse(&pattern, &self.input.proposal).expect("its steps were walked");
        tableau.steps[place].argument -= 1;
        let finding = tableau::finding(&pattern, &tableau);
        !matches!(finding, Finding::Refused(refusal) if refusal.place as usize == place)
    }

    /// The most right sides that wait at once, of a closed tableau.
    pub(super) fn most_waiting(&self) -> usize {
        let (mut waiting, mut most) = (0usize, 0);
        for step in self.steps() {
            if says_fork(step[0]) {
                waiting += 1;
            } else if says_clash(step[0]) {
                waiting = waiting.saturating_sub(1);
            }
            most = most.max(waiting);
        }
        most
    }
}
