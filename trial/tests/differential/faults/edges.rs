//! A judge of models that is right but for the order that edges must have.

use oracle::finding::{Finding, Refusal};
use oracle::model;
use oracle::pattern;
use trial::differential::implementation::{Lent, run_oracle};
use trial::generate::input::Operation;

type Edge = [u8; 3];

/// The edge records of a model of so many nodes.
pub struct Edges {
    nodes: u8,
    records: Vec<Edge>,
}

/// The refusal that it gives of the edge records, if it gives one, with the words for what is wrong.
pub type Mistake = (&'static str, fn(&Edges) -> Option<Refusal>);

pub const MISTAKES: [Mistake; 25] = [
    ("in any order", |edges| edges.checked(|_| false)),
    ("a repeat passes", |edges| edges.compared(|before, edge| before <= edge)),
    ("repeats alone are refused", |edges| edges.compared(|before, edge| before != edge)),
    ("falling", |edges| edges.compared(|before, edge| before > edge)),
    ("by from alone", |edges| edges.compared(|before, edge| before[0] <= edge[0])),
    ("by from alone, strictly", |edges| edges.compared(|before, edge| before[0] < edge[0])),
    ("by from and axis", |edges| edges.compared(|before, edge| before[..2] <= edge[..2])),
    ("by from and axis, strictly", |edges| edges.compared(|before, edge| before[..2] < edge[..2])),
    ("by from and to", |edges| edges.by([0, 2, 0])),
    ("by axis and to", |edges| edges.by([1, 2, 1])),
    ("by from, to, axis", |edges| edges.by([0, 2, 1])),
    ("by axis, from, to", |edges| edges.by([1, 0, 2])),
    ("by to, from, axis", |edges| edges.by([2, 0, 1])),
    ("by to, axis, from", |edges| edges.by([2, 1, 0])),
    ("no field may be lower", |edges| {
        edges.compared(|before, edge| before < edge && (0..3).all(|field| before[field] <= edge[field]))
    }),
    ("compared with record 0", |edges| {
        edges.checked(|place| place > 0 && edges.records[place] <= edges.records[0])
    }),
    ("record 0 compared with zeros", |edges| {
        edges.checked(|place| edges.falls(place) || place == 0 && edges.records[0] == [0; 3])
    }),
    ("record 1 isn't compared", |edges| edges.checked(|place| place != 1 && edges.falls(place))),
    ("the last record isn't compared", |edges| {
        edges.checked(|place| place + 1 < edges.records.len() && edges.falls(place))
    }),
    ("records up to 255 are compared", |edges| edges.checked(|place| place < 256 && edges.falls(place))),
    ("the place is the record before", |edges| {
        edges.right().map(|refusal| match refusal.number {
            28 => Refusal { place: refusal.place - 1, ..refusal },
            _ => refusal,
        })
    }),
    ("the place is 0", |edges| {
        edges.right().map(|refusal| match refusal.number {
            28 => Refusal { place: 0, ..refusal },
            _ => refusal,
        })
    }),
    ("14 of every record before 28", |edges| edges.checked(|_| false).or_else(|| edges.right())),
    ("28 of every record before 14", |edges| edges.first_fall(0).or_else(|| edges.right())),
    ("28 before 14 in one record", |edges| {
        let right = edges.right()?;
        edges.first_fall(right.place.into()).filter(|wrong| wrong.place == right.place).or(Some(right))
    }),
];

impl Edges {
    /// The first refusal: 14 of a record that is out of range, else 28 of one that falls.
    fn checked(&self, falls: impl Fn(usize) -> bool) -> Option<Refusal> {
        (0..self.records.len()).find_map(|place| {
            let [from, axis, to] = self.records[place];
            let outside = from >= self.nodes || axis > 7 || to >= self.nodes;
            let refusal = |number| Refusal { number, place: place as u16 };
            if outside { Some(refusal(14)) } else { falls(place).then(|| refusal(28)) }
        })
    }

    /// The first refusal, if a record comes after the one before it where this says so.
    fn compared(&self, comes_after: fn(Edge, Edge) -> bool) -> Option<Refusal> {
        self.checked(|place| place > 0 && !comes_after(self.records[place - 1], self.records[place]))
    }

    /// The first refusal, if records are compared by these fields one after the other.
    fn by(&self, fields: Edge) -> Option<Refusal> {
        let key = |place: usize| fields.map(|field| self.records[place][field as usize]);
        self.checked(|place| place > 0 && key(place) <= key(place - 1))
    }

    /// What is refused rightly.
    pub fn right(&self) -> Option<Refusal> {
        self.by([0, 1, 2])
    }

    fn falls(&self, place: usize) -> bool {
        place > 0 && self.records[place] <= self.records[place - 1]
    }

    /// Refusal 28 of the first record from this one on that falls, in range or not.
    fn first_fall(&self, from: usize) -> Option<Refusal> {
        let place = (from..self.records.len()).find(|&place| self.falls(place))?;
        Some(Refusal { number: 28, place: place as u16 })
    }
}

/// The faulty judge as an implementation: what is checked before the edges and behind them is as it should be.
pub fn unordered(refuses: fn(&Edges) -> Option<Refusal>, operation: Operation, lent: Lent) -> Finding {
    let mut kept = lent.area.to_vec();
    let oracle = Lent { pattern: &mut *lent.pattern, proposal: &mut *lent.proposal, area: &mut kept };
    let finding = run_oracle(operation, oracle);
    let looked_at = matches!(
        finding,
        Finding::Met { .. } | Finding::Unmet | Finding::Refused(Refusal { number: 14 | 27 | 28, .. })
    );
    if operation != Operation::Model || !looked_at {
        lent.area.copy_from_slice(&kept);
        return finding;
    }
    let (without, edges) = parted(lent.proposal);
    if let Some(refusal) = refuses(&edges) {
        return Finding::Refused(refusal);
    }
    let pattern = pattern::parse(lent.pattern).expect("it was read");
    let mut model = model::parse(&without).expect("its edges were looked at");
    model.edges = edges.records.iter().map(|&[from, axis, to]| (from, axis, to)).collect();
    if let Err(refusal) = model::check_names(&pattern, &model) {
        return Finding::Refused(refusal);
    }
    lent.area[..model::area(&pattern)].fill(0);
    model::finding(&pattern, &model)
}

/// A model file without its edges, and the edges.
pub fn parted(file: &[u8]) -> (Vec<u8>, Edges) {
    let edges = 3 * u16::from_le_bytes([file[7], file[8]]) as usize;
    let (without, edges) = file.split_at(file.len() - edges);
    let mut without = without.to_vec();
    without[7..9].fill(0);
    (without, Edges { nodes: file[5], records: edges.as_chunks().0.to_vec() })
}
