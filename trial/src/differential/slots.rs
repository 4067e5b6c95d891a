//! Entries that share a slot of the proved reader, and entries that repeat one: what an input shows of them.

use super::limits::{Judged, Limit};
use crate::generate::slots::slot;
use oracle::finding::Finding;
use std::collections::BTreeSet;

pub const SHARED: [Limit; 4] = [
    ("entries that share a slot read", |it| it.read_of_shared_slots()),
    ("repeat of an entry alone in its slot refused 7", |it| {
        it.repeated().is_some_and(|slot| !slot.contains(&false))
    }),
    ("repeat of an entry before others of its slot refused 7", |it| {
        it.repeated().is_some_and(|slot| slot.len() > 1 && slot[0] && !slot[1..].contains(&true))
    }),
    ("repeat of an entry behind others of its slot refused 7", |it| {
        it.repeated().is_some_and(|slot| slot.len() > 1 && slot.ends_with(&[false, true]))
    }),
];

impl Judged<'_> {
    pub(super) fn entries(&self) -> &[[u8; 4]] {
        self.input.pattern.get(6..).unwrap_or_default().as_chunks().0
    }

    /// Whether a pattern was read in which a slot has several entries.
    fn read_of_shared_slots(&self) -> bool {
        let slots = || self.entries().iter().copied().map(slot).collect::<BTreeSet<u64>>();
        matches!(self.finding, Finding::Read { .. }) && slots().len() < self.entries().len()
    }

    /// Of the entries before the one that was refused 7, those of its slot: whether each is equal to it.
    fn repeated(&self) -> Option<Vec<bool>> {
        let place = self.place(7)?;
        let refused = self.entries()[place];
        let of_slot = self.entries()[..place].iter().filter(|entry| slot(**entry) == slot(refused));
        Some(of_slot.map(|entry| *entry == refused).collect())
    }
}
