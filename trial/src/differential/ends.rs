//! Where paths lead: what an input shows of neighbouring nodes that a step leads from, and of the ends of two paths that
//! are compared. The proved judgement takes the row of a node over from the one before it if both lead alike, and finds a
//! node that both paths lead to before it looks at values.

use super::limits::{Judged, Limit};
use super::rows::Kept;
use crate::generate::input::Input;
use oracle::model::{self, MAX_NODES, NodeSet, path_ends};
use oracle::pattern::{Comparison, Entry, MAX_AXIS};

pub const ENDS: [Limit; 21] = [
    ("step from neighbours that lead to the same nodes", |it| {
        it.steps_over(|led| led.neighbours().any(|[one, next]| one == next && one != 0))
    }),
    ("step from neighbours that lead nowhere", |it| {
        it.steps_over(|led| led.neighbours().any(|pair| pair == [0; 2]))
    }),
    ("step from node 1 that leads as node 0", |it| {
        it.steps_over(|led| led.nodes().len() > 2 && led.nodes()[0] == led.nodes()[1] && led.nodes()[0] != 0)
    }),
    ("step from the last node that leads as the one before it", |it| {
        it.steps_over(|led| led.nodes().ends_with(&[led.nodes()[led.nodes().len() - 1]; 2]))
    }),
    ("step from eight nodes or more that all lead alike", |it| {
        it.steps_over(|led| {
            led.nodes().len() >= 8 && led.neighbours().all(|[one, next]| one == next && one != 0)
        })
    }),
    ("step from eight nodes or more of which no neighbours lead alike", |it| {
        it.steps_over(|led| led.nodes().len() >= 8 && led.neighbours().all(|[one, next]| one != next))
    }),
    ("step from nodes that lead alike, broken by one", |it| {
        it.steps_over(|led| {
            led.nodes()
                .windows(5)
                .any(|five| five[0] != five[2] && [0, 1, 3, 4].iter().all(|&at| five[at] == five[0]))
        })
    }),
    ("step from neighbours that lead alike on another axis alone", |it| {
        it.steps_over(|led| led.neighbours_on_any_axis().any(|[is_here, is_there]| !is_here && is_there))
    }),
    ("step from neighbours that lead to as many nodes, not the same", |it| {
        it.steps_over(|led| {
            led.neighbours().any(|[one, next]| one != next && one.count_ones() == next.count_ones())
        })
    }),
    ("step from neighbours of which the second leads to more nodes", |it| {
        it.steps_over(|led| led.neighbours().any(|[one, next]| one != next && one & !next == 0))
    }),
    ("step from neighbours of which the first leads to more nodes", |it| {
        it.steps_over(|led| led.neighbours().any(|[one, next]| one != next && next & !one == 0))
    }),
    ("step from node 0 that leads as node 63 on the axis before", |it| {
        it.steps_over(|led| led.axis > 0 && led.of[led.axis - 1][MAX_NODES - 1] == led.nodes()[0])
    }),
    ("same by a node that both paths lead to", |it| it.same(|pair| pair.in_common && pair.found)),
    ("same by values of different nodes alone", |it| it.same(|pair| !pair.in_common && pair.found)),
    ("not same where both paths lead somewhere", |it| it.same(|pair| !pair.found)),
    ("same by a node in common and by different nodes, in one comparison", |it| {
        it.led(|led| {
            let found = |compared: &Compared, in_common: bool| {
                compared.pairs.iter().any(|pair| pair.found && pair.in_common == in_common)
            };
            let mut same = led.compared.iter().filter(|compared| compared.comparison == Comparison::Same);
            same.any(|compared| found(compared, true) && found(compared, false))
        })
    }),
    ("differ where both paths lead to a node", |it| it.differ(|pair| pair.in_common && pair.found)),
    ("not differ where both paths lead to a node", |it| it.differ(|pair| pair.in_common && !pair.found)),
    ("differ where both paths lead to other nodes", |it| it.differ(|pair| !pair.in_common && pair.found)),
    ("not differ where both paths lead to other nodes", |it| {
        it.differ(|pair| !pair.in_common && !pair.found)
    }),
    ("path that leads nowhere compared with one that leads somewhere", |it| {
        it.led(|led| led.compared.iter().any(|compared| compared.leads_nowhere))
    }),
];

/// Where each node leads, by axis.
type Axes = [[NodeSet; MAX_NODES]; MAX_AXIS as usize + 1];

/// Where the paths of a pattern lead in a model that is judged.
pub struct Led {
    nodes: usize,
    successors: Box<Axes>,
    /// The axes of the steps that have rows.
    stepped: Vec<usize>,
    compared: Vec<Compared>,
}

/// A comparison that the root reaches.
struct Compared {
    comparison: Comparison,
    /// By node from which both paths lead somewhere.
    pairs: Vec<Pair>,
    /// Whether from some node one path alone leads somewhere.
    leads_nowhere: bool,
}

/// The ends of two paths from a node.
struct Pair {
    in_common: bool,
    /// Whether they compare so.
    found: bool,
}

impl Led {
    /// Where paths lead in the model of the input, of which this is kept.
    pub fn of(input: &Input, kept: &Kept) -> Led {
        let model = model::parse(&input.proposal).expect("it was judged");
        let mut successors = Box::new([[0; MAX_NODES]; MAX_AXIS as usize + 1]);
        for &(from, axis, to) in &model.edges {
            successors[axis as usize][from as usize] |= 1 << to;
        }
        let ends = path_ends(kept.pattern(), &model);
        let compared = kept.comparisons().map(|entry| {
            let Entry::Compare(comparison, channel, alpha, beta) = *entry else { unreachable!() };
            let value = |node: usize| model.nodes[node].values[channel as usize];
            let from =
                |node: usize| [alpha, beta].map(|path| path.map_or(1 << node, |path| ends[path][node]));
            let lead = (0..model.nodes.len()).map(from);
            let pair = |[left, right]: [NodeSet; 2]| {
                let is_equal = |one: usize, other: usize| value(one) == value(other);
                let wanted = comparison == Comparison::Same;
                let found =
                    members(left).any(|one| members(right).any(|other| is_equal(one, other) == wanted));
                Pair { in_common: left & right != 0, found }
            };
            let leads_nowhere = lead.clone().any(|[left, right]| (left == 0) != (right == 0));
            let pairs = lead.filter(|ends| !ends.contains(&0)).map(pair).collect();
            Compared { comparison, pairs, leads_nowhere }
        });
        let compared = compared.collect();
        Led { nodes: model.nodes.len(), successors, stepped: kept.stepped(), compared }
    }
}

fn members(set: NodeSet) -> impl Iterator<Item = usize> {
    (0..MAX_NODES).filter(move |node| set >> node & 1 == 1)
}

/// Where the nodes lead on the axis of a step.
struct Over<'a> {
    of: &'a Axes,
    axis: usize,
    count: usize,
}

impl Over<'_> {
    fn nodes(&self) -> &[NodeSet] {
        &self.of[self.axis][..self.count]
    }

    /// Each node and the next.
    fn neighbours(&self) -> impl Iterator<Item = [NodeSet; 2]> {
        pairs(self.nodes())
    }

    /// Whether neighbours lead alike on this axis, and whether on another, which leads somewhere.
    fn neighbours_on_any_axis(&self) -> impl Iterator<Item = [bool; 2]> {
        let others = self.of.iter().map(|axis| &axis[..self.count]);
        let alike = |[one, next]: [NodeSet; 2]| one == next;
        others.flat_map(move |other| {
            let there = pairs(other).map(move |pair| alike(pair) && pair[0] != 0);
            self.neighbours().map(alike).zip(there).map(|(here, there)| [here, there])
        })
    }
}

fn pairs(nodes: &[NodeSet]) -> impl Iterator<Item = [NodeSet; 2]> {
    nodes.windows(2).map(|pair| [pair[0], pair[1]])
}

impl Judged<'_> {
    fn led(&self, shows: impl Fn(&Led) -> bool) -> bool {
        self.led.as_ref().is_some_and(shows)
    }

    /// Whether a model was judged in which nodes lead so on the axis of a step that has rows.
    fn steps_over(&self, shows: impl Fn(&Over) -> bool) -> bool {
        self.led(|led| {
            let over = |&axis: &usize| Over { of: &led.successors, axis, count: led.nodes };
            led.stepped.iter().map(over).any(|over| shows(&over))
        })
    }

    /// Whether a comparison found ends so.
    fn compares(&self, comparison: Comparison, shows: impl Fn(&Pair) -> bool) -> bool {
        self.led(|led| {
            let mut compared = led.compared.iter().filter(|compared| compared.comparison == comparison);
            compared.any(|compared| compared.pairs.iter().any(&shows))
        })
    }

    fn same(&self, shows: impl Fn(&Pair) -> bool) -> bool {
        self.compares(Comparison::Same, shows)
    }

    fn differ(&self, shows: impl Fn(&Pair) -> bool) -> bool {
        self.compares(Comparison::Differ, shows)
    }
}
