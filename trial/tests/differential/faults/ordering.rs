//! An orderer of older models that is right but for one thing.

use oracle::finding::{Finding, Refusal};
use oracle::model::{self, Edge, Model};
use trial::differential::implementation::{Lent, judge_ordered, run_oracle};
use trial::generate::input::Operation;

/// Its parts.
#[derive(Clone, Copy)]
pub struct Orderer {
    /// Reads the old file.
    parse: fn(&[u8]) -> Result<Model, Refusal>,
    /// Makes the new file's nodes, names and edges of the old one's.
    change: fn(&mut Model),
    /// The number of edges that the new file says, of those that the old one had and those that it has.
    count: fn(usize, usize) -> usize,
    /// The destination that is wanted, of the lengths of the old file and of the new one.
    want: fn(usize, usize) -> usize,
    /// Whether it refuses a short destination before it reads the old file.
    short_first: bool,
    /// What it does to the destination beside writing the new file, told the old one and what was found.
    spoil: fn(&mut [u8], &[u8], Finding),
}

pub const RIGHT: Orderer = Orderer {
    parse: model::parse_old,
    change: |model| by(model, [0, 1, 2]),
    count: |_, new| new,
    want: |_, new| new,
    short_first: false,
    spoil: |_, _, _| {},
};

pub type Mistake = (&'static str, Orderer);

/// Mistakes that give another finding.
pub const OTHER_FINDINGS: [Mistake; 9] = [
    ("repeats are kept", Orderer { change: |model| model.edges.sort(), ..RIGHT }),
    ("repeats side by side in the old file alone are dropped", Orderer { change: dropped_in_place, ..RIGHT }),
    ("edges with the same ends are one", Orderer { change: |model| one_of_each(model, [0, 2, 2]), ..RIGHT }),
    ("the last edge is lost", Orderer { change: |model| without(model, |edges| edges.len() - 1), ..RIGHT }),
    ("the first edge is lost", Orderer { change: |model| without(model, |_| 0), ..RIGHT }),
    ("28 is given", Orderer { parse: model::parse, ..RIGHT }),
    ("29 by the old length", Orderer { want: |old, _| old, ..RIGHT }),
    ("29 for a destination that is just long enough", Orderer { want: |_, new| new + 1, ..RIGHT }),
    ("29 before the old file's checks", Orderer { short_first: true, ..RIGHT }),
];

/// Mistakes that leave other bytes in the destination.
pub const OTHER_BYTES: [Mistake; 14] = [
    ("edges by from, to, axis", Orderer { change: |model| by(model, [0, 2, 1]), ..RIGHT }),
    ("edges by axis, from, to", Orderer { change: |model| by(model, [1, 0, 2]), ..RIGHT }),
    ("edges by axis, to, from", Orderer { change: |model| by(model, [1, 2, 0]), ..RIGHT }),
    ("edges by to, from, axis", Orderer { change: |model| by(model, [2, 0, 1]), ..RIGHT }),
    ("edges by to, axis, from", Orderer { change: |model| by(model, [2, 1, 0]), ..RIGHT }),
    ("edges fall", Orderer { change: |model| changed(model, |model| model.edges.reverse()), ..RIGHT }),
    ("edges as they stand, each once", Orderer { change: as_they_stand, ..RIGHT }),
    ("names sorted", Orderer { change: |model| changed(model, |model| model.names.sort()), ..RIGHT }),
    ("names reversed", Orderer { change: |model| changed(model, |model| model.names.reverse()), ..RIGHT }),
    ("the number of edges left as it was", Orderer { count: |old, _| old, ..RIGHT }),
    ("the number of edges in one byte", Orderer { count: |_, new| new & 255, ..RIGHT }),
    ("the old file's last bytes behind the new one", Orderer { spoil: old_bytes_behind, ..RIGHT }),
    ("zeros behind the new file", Orderer { spoil: zeros_behind, ..RIGHT }),
    ("the byte behind the new file", Orderer { spoil: next_byte, ..RIGHT }),
];

/// Mistakes that change the destination though the model is refused with this number.
pub const TOUCHED: [(u16, Orderer); 3] = [
    (29, Orderer { spoil: |new, old, found| touched(new, old, found, 29), ..RIGHT }),
    (14, Orderer { spoil: |new, old, found| touched(new, old, found, 14), ..RIGHT }),
    (13, Orderer { spoil: |new, old, found| touched(new, old, found, 13), ..RIGHT }),
];

/// Sorts the edges by these fields one after the other, and keeps each once.
fn by(model: &mut Model, fields: [usize; 3]) {
    model.edges.sort_by_key(|edge| key(edge, fields));
    model.edges.dedup();
}

fn key(&(from, axis, to): &Edge, fields: [usize; 3]) -> [u8; 3] {
    fields.map(|field| [from, axis, to][field])
}

/// Sorts the edges rightly, and keeps the first of those that are equal in these fields.
fn one_of_each(model: &mut Model, fields: [usize; 3]) {
    model.edges.sort();
    model.edges.dedup_by_key(|edge| key(edge, fields));
}

/// What is right, and then a change.
fn changed(model: &mut Model, change: fn(&mut Model)) {
    (RIGHT.change)(model);
    change(model);
}

/// What is right without one of the edges, if there are any.
fn without(model: &mut Model, place: fn(&[Edge]) -> usize) {
    (RIGHT.change)(model);
    if !model.edges.is_empty() {
        model.edges.remove(place(&model.edges));
    }
}

fn dropped_in_place(model: &mut Model) {
    model.edges.dedup();
    model.edges.sort();
}

fn as_they_stand(model: &mut Model) {
    let mut kept = Vec::new();
    for edge in model.edges.drain(..) {
        if !kept.contains(&edge) {
            kept.push(edge);
        }
    }
    model.edges = kept;
}

fn old_bytes_behind(destination: &mut [u8], old: &[u8], found: Finding) {
    if let Finding::Written { length } = found {
        let behind = length as usize..old.len().min(destination.len());
        destination[behind.clone()].copy_from_slice(&old[behind]);
    }
}

fn zeros_behind(destination: &mut [u8], _: &[u8], found: Finding) {
    if let Finding::Written { length } = found {
        destination[length as usize..].fill(0);
    }
}

fn next_byte(destination: &mut [u8], _: &[u8], found: Finding) {
    if let Finding::Written { length } = found
        && let Some(byte) = destination.get_mut(length as usize)
    {
        *byte = !*byte;
    }
}

/// Copies as much of the old file as there is room for, if it was refused with this number.
fn touched(destination: &mut [u8], old: &[u8], found: Finding, refused: u16) {
    if matches!(found, Finding::Refused(Refusal { number, .. }) if number == refused) {
        let room = old.len().min(destination.len());
        destination[..room].copy_from_slice(&old[..room]);
    }
}

impl Orderer {
    /// As an implementation: other operations are left to the oracle.
    pub fn run(self, operation: Operation, lent: Lent) -> Finding {
        match operation {
            Operation::Ordering => self.order(lent.proposal, lent.area),
            _ => run_oracle(operation, lent),
        }
    }

    /// As an implementation whose mistake is left to be seen by what a pattern finds in the new file.
    pub fn run_judged(self, operation: Operation, lent: Lent) -> Finding {
        match operation {
            Operation::Ordered => judge_ordered(|old, new| self.order(old, new), model::judge, lent),
            _ => run_oracle(operation, lent),
        }
    }

    fn order(self, old: &[u8], destination: &mut [u8]) -> Finding {
        let found = self.written(old, destination).unwrap_or_else(Finding::Refused);
        (self.spoil)(destination, old, found);
        found
    }

    fn written(self, old: &[u8], destination: &mut [u8]) -> Result<Finding, Refusal> {
        let short = Refusal { number: 29, place: 0 };
        if self.short_first && destination.len() < 9 {
            return Err(short);
        }
        let mut model = (self.parse)(old)?;
        let edges = model.edges.len();
        (self.change)(&mut model);
        let mut new = model.to_bytes();
        let count = (self.count)(edges, model.edges.len()) as u16;
        new[7..9].copy_from_slice(&count.to_le_bytes());
        if destination.len() < (self.want)(old.len(), new.len()) {
            return Err(short);
        }
        destination[..new.len()].copy_from_slice(&new);
        Ok(Finding::Written { length: new.len() as u16 })
    }
}
