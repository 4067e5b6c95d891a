//! Paths and the slots of their rows, as `generate::rows` has them: what an input shows of paths that lose theirs and
//! get them back. And values that share a bucket.

use super::limits::{Judged, Limit};
use crate::generate::input::{Input, Operation};
use crate::generate::models::BUCKETS;
use crate::generate::rows::{FEW, Giving, Learning, MOST, ROW, Slots, bytes, paths_of, paths_reached};
use oracle::finding::Finding;
use oracle::pattern::{self, Entry, MAX_CHANNEL, Path, Pattern};
use std::iter::zip;

pub const ROWS: [Limit; 43] = [
    ("small judgement", |it| it.kept(|kept| kept.is_small())),
    ("small judgement without room for another path", |it| {
        it.kept(|kept| {
            kept.is_small() && kept.slots * kept.nodes * ROW == FEW && kept.reached + 1 == kept.slots
        })
    }),
    ("one path too many for a small judgement", |it| {
        it.kept(|kept| !kept.is_small() && kept.reached * kept.nodes * ROW <= FEW)
    }),
    ("large judgement", |it| it.kept(|kept| !kept.is_small())),
    ("255 slots, more than 100 paths in use", |it| it.kept(|kept| kept.slots == MOST && kept.in_use > 100)),
    ("as many paths in use as slots", |it| it.kept(|kept| kept.in_use + 1 == kept.slots)),
    ("more paths reached than slots, not in use at once", |it| {
        it.kept(|kept| kept.reached >= kept.slots && kept.in_use < kept.slots)
    }),
    ("more paths than slots, not all reached", |it| {
        it.kept(|kept| kept.paths() >= kept.slots && kept.reached < kept.slots)
    }),
    ("more paths in use than slots", |it| it.kept(|kept| kept.in_use >= kept.slots)),
    ("path given the slot of one that isn't used any longer", |it| {
        it.given(|slot| slot.given == Given::Unused)
    }),
    ("path given the slot of the one that is used again last", |it| {
        it.given(|slot| slot.given == Given::Taken)
    }),
    ("path given the slot of one of two that are used again last", |it| {
        it.given(|slot| slot.given == Given::Taken && slot.of_two)
    }),
    ("first slot taken from a path that is used again", |it| {
        it.given(|slot| slot.given == Given::Taken && slot.number == 1)
    }),
    ("last slot taken from a path that is used again", |it| {
        it.kept(|kept| kept.given(|slot| slot.given == Given::Taken && slot.number + 1 == kept.slots))
    }),
    ("slot taken for a path that goes on by one that isn't used behind it", |it| {
        it.given(|slot| slot.given == Given::Taken && slot.last_of_rest)
    }),
    ("path that had rows when another lost its own compared by them", |it| it.kept(Kept::keeps_another)),
    ("path with rows used after more others than slots", |it| it.kept(Kept::keeps_an_old_path)),
    ("path that lost its rows brought back for a comparison", |it| {
        it.brought_back(|of, slot| of.compares(|_| true) && of.refers_to(slot) && slot.had_rows)
    }),
    ("path that lost its rows brought back for a path that goes on by it", |it| {
        it.brought_back(|of, slot| of.has_rows() && of.refers_to(slot) && slot.had_rows)
    }),
    ("path brought back, which is a step", |it| it.restored(|entry| matches!(entry, Entry::Step(..)))),
    ("path brought back, which is a jump", |it| it.restored(|entry| matches!(entry, Entry::Jump(..)))),
    ("path brought back, which is a test", |it| it.restored(|entry| matches!(entry, Entry::Test(..)))),
    ("path brought back, which is a fork", |it| it.restored(|entry| matches!(entry, Entry::Fork(..)))),
    ("path brought back, which is entry 0", |it| it.brought_back(|_, slot| slot.path == 0)),
    ("path brought back with the two below it by which it goes on", |it| {
        it.kept(|kept| kept.learned.iter().any(|of| of.longest_chain(&kept.pattern) >= 3))
    }),
    ("path brought back into a slot that nobody has", |it| {
        it.brought_back(|_, slot| slot.given == Given::Nobodys)
    }),
    ("path brought back into the slot of one that isn't used any longer", |it| {
        it.brought_back(|_, slot| slot.given == Given::Unused)
    }),
    ("path given the slot of the one that it goes on by, for an entry that needs it", |it| {
        it.learned(|of| of.back.iter().any(|slot| slot.given == Given::OfRest))
    }),
    ("path brought back that loses its rows before the entry has them", |it| {
        it.learned(|of| of.filled().any(|slot| of.loses(slot)))
    }),
    ("path brought back again and again", |it| it.kept(Kept::brings_back_repeatedly)),
    ("path brought back compared with one that kept its rows", |it| {
        it.compared(|ends| ends.contains(&Ends::Back) && ends.contains(&Ends::Rows))
    }),
    ("two paths brought back compared", |it| {
        it.learned(|of| of.compares(|ends| ends == [Ends::Back; 2]) && of.paths[0] != of.paths[1])
    }),
    ("path brought back compared with itself", |it| {
        it.learned(|of| of.compares(|ends| ends == [Ends::Back; 2]) && of.paths[0] == of.paths[1])
    }),
    ("path brought back compared with the end of path", |it| {
        it.compared(|ends| ends.contains(&Ends::Own) && ends.contains(&Ends::Back))
    }),
    ("fork of a path brought back and one that kept its rows", |it| {
        it.learned(|of| of.is_fork() && of.ends.contains(&Ends::Back) && of.ends.contains(&Ends::Rows))
    }),
    ("fork of two paths brought back", |it| {
        it.learned(|of| of.is_fork() && of.ends == [Ends::Back; 2] && of.paths[0] != of.paths[1])
    }),
    ("path with rows compared with the end of path", |it| {
        it.compared(|ends| ends.contains(&Ends::Own) && ends.contains(&Ends::Rows))
    }),
    ("end of path compared with itself", |it| it.compared(|ends| ends == [Ends::Own; 2])),
    ("slot given away of a path that an entry uses which isn't reached", |it| {
        it.kept(Kept::forgets_what_is_used_unreached)
    }),
    ("path that the root doesn't reach", |it| it.kept(|kept| kept.paths() > kept.reached)),
    ("comparison that the root doesn't reach", |it| it.kept(Kept::has_an_unreached_comparison)),
    ("values of one bucket that differ, compared", |it| {
        it.in_buckets(|earlier, value| earlier.iter().any(|other| *other != value))
    }),
    ("values of one bucket that are equal behind one that differs, compared", |it| {
        it.in_buckets(|earlier, value| earlier.contains(&value) && earlier[0] != value)
    }),
];

/// How the ends of a path are had when an entry that refers to it is learned.
#[derive(Clone, Copy, PartialEq, Eq)]
enum Ends {
    /// Those of the end of path.
    Own,
    Rows,
    /// By rows that were brought back for the entry.
    Back,
    /// Anew. No input is known for which that is so: what an entry needs is brought back before it.
    Swept,
}

/// Whose slot a path is given.
#[derive(Clone, Copy, PartialEq, Eq)]
enum Given {
    Nobodys,
    /// That of a path that isn't used any longer.
    Unused,
    /// That of the path that is used again last, by which it doesn't go on.
    Taken,
    /// That of a path by which it goes on, so that neither has rows.
    OfRest,
}

/// The slot that a path is given.
struct Slot {
    path: usize,
    number: usize,
    given: Given,
    /// The path that had it.
    holder: Path,
    /// Whether another path is used again by the same entry as that one.
    of_two: bool,
    /// Whether the path goes on by one that isn't used behind the entry for which it is learned.
    last_of_rest: bool,
    /// Whether the path had rows before.
    had_rows: bool,
}

impl Slot {
    /// Whether the path has its rows there.
    fn is_filled(&self) -> bool {
        self.given != Given::OfRest
    }
}

/// An entry that the root reaches, when it is learned.
struct Learned {
    number: usize,
    entry: Entry,
    /// The paths that it compares or goes on by, and how their ends are had.
    paths: Vec<Path>,
    ends: Vec<Ends>,
    /// The slots of the paths that are learned again for it.
    back: Vec<Slot>,
    /// The slot that it is given, if it is a path.
    slot: Option<Slot>,
}

impl Learned {
    fn compares(&self, shows: impl Fn(&[Ends]) -> bool) -> bool {
        matches!(self.entry, Entry::Compare(..)) && shows(&self.ends)
    }

    fn is_fork(&self) -> bool {
        matches!(self.entry, Entry::Fork(..))
    }

    fn has_rows(&self) -> bool {
        self.slot.as_ref().is_some_and(Slot::is_filled)
    }

    /// Whether another path, which is used again, loses its rows.
    fn takes(&self) -> bool {
        self.slot.as_ref().is_some_and(|slot| slot.given == Given::Taken)
    }

    /// The paths that it refers to and whose ends are had so.
    fn with(&self, are_such: impl Fn(&Ends) -> bool) -> impl Iterator<Item = usize> {
        let such = zip(&self.paths, &self.ends).filter(move |(_, ends)| are_such(ends));
        such.filter_map(|(path, _)| *path)
    }

    /// The slots of the paths that get their rows back for it.
    fn filled(&self) -> impl Iterator<Item = &Slot> {
        self.back.iter().filter(|slot| slot.is_filled())
    }

    /// Whether it refers to the path of the slot.
    fn refers_to(&self, slot: &Slot) -> bool {
        self.paths.contains(&Some(slot.path))
    }

    /// Whether another path that is learned again for it takes the slot.
    fn loses(&self, slot: &Slot) -> bool {
        self.back.iter().any(|other| other.holder == Some(slot.path) && other.path > slot.path)
    }

    /// The most paths brought back for it of which each goes on by the one before.
    fn longest_chain(&self, pattern: &Pattern) -> usize {
        let mut lengths = vec![0; pattern.entries.len()];
        for slot in self.filled() {
            let rests = paths_of(&pattern.entries[slot.path]).into_iter().flatten();
            lengths[slot.path] = 1 + rests.map(|rest| lengths[rest]).max().unwrap_or(0);
        }
        lengths.into_iter().max().unwrap_or(0)
    }
}

/// The slots, and what was seen of them.
struct Watched {
    slots: Slots,
    had_rows: Vec<bool>,
    /// Those that were given for the entry that is learned.
    given: Vec<Slot>,
}

impl Learning for Watched {
    fn slots(&self) -> &Slots {
        &self.slots
    }

    fn fill(&mut self, giving: Giving) {
        let Giving { path, entry, slot: number, is_free } = giving;
        let (slots, rests) = (&self.slots, self.slots.paths_of(path));
        let holder = slots.holder(number);
        let given = match holder {
            None => Given::Nobodys,
            _ if rests.contains(&holder) => Given::OfRest,
            _ if is_free => Given::Unused,
            _ => Given::Taken,
        };
        let next_use = |path: usize| slots.next_use(path, entry);
        let as_late = |path: &usize| holder.map(next_use) == Some(next_use(*path));
        let of_two = given == Given::Taken && slots.holders().filter(as_late).count() == 2;
        let last_of_rest = rests.iter().flatten().any(|&rest| !slots.is_used(rest, entry + 1));
        let had_rows = self.had_rows[path];
        self.given.push(Slot { path, number, given, holder, of_two, last_of_rest, had_rows });
        self.slots.fill(giving);
        self.had_rows[path] |= self.slots.hold(Some(path));
    }
}

impl Watched {
    /// Learns an entry that the root reaches.
    fn watch(&mut self, number: usize, entry: Entry) -> Learned {
        self.learn(number);
        let slot = self.given.pop_if(|slot| slot.path == number);
        let back = std::mem::take(&mut self.given);
        let ends = |path: &Path| match *path {
            None => Ends::Own,
            Some(path) if self.slots.hold(Some(path)) => {
                if back.iter().any(|slot| slot.path == path) {
                    Ends::Back
                } else {
                    Ends::Rows
                }
            }
            _ => Ends::Swept,
        };
        let paths = paths_of(&entry);
        let ends = paths.iter().map(ends).collect();
        Learned { number, entry, paths, ends, back, slot }
    }
}

/// What is kept of the paths of a pattern while a model is judged.
pub struct Kept {
    pattern: Pattern,
    nodes: usize,
    slots: usize,
    /// How many paths the root reaches, and how many of them are used again at once, at most, when one is learned,
    /// which counts too.
    reached: usize,
    in_use: usize,
    learned: Vec<Learned>,
}

impl Kept {
    /// What is kept in judging the input, if that finds a model met or unmet.
    pub fn of(input: &Input, finding: Finding) -> Option<Kept> {
        match (input.operation, finding) {
            (Operation::Model, Finding::Met { .. } | Finding::Unmet) => {
                let pattern = pattern::parse(&input.pattern).expect("it was read");
                Some(Kept::new(pattern, input.proposal[5].into()))
            }
            _ => None,
        }
    }

    fn new(pattern: Pattern, nodes: usize) -> Kept {
        let slots = Slots::new(&pattern, nodes);
        let mut watched = Watched { slots, had_rows: vec![false; pattern.entries.len()], given: Vec::new() };
        let (mut learned, mut in_use) = (Vec::new(), 0);
        let mut paths_learned: Vec<usize> = Vec::new();
        for (number, _) in zip(0.., pattern.reached()).filter(|(_, reached)| *reached) {
            let entry = pattern.entries[number];
            learned.push(watched.watch(number, entry));
            if entry.is_path() {
                paths_learned.retain(|&path| watched.slots.is_used(path, number));
                paths_learned.push(number);
                in_use = in_use.max(paths_learned.len());
            }
        }
        let reached = paths_reached(&pattern);
        Kept { pattern, nodes, slots: watched.slots.count(), reached, in_use, learned }
    }

    pub fn pattern(&self) -> &Pattern {
        &self.pattern
    }

    /// The axes of the steps that have rows.
    pub fn stepped(&self) -> Vec<usize> {
        let with_rows = self.learned.iter().filter(|of| of.has_rows());
        let axis = |of: &Learned| match of.entry {
            Entry::Step(axis, _) => Some(axis.into()),
            _ => None,
        };
        with_rows.filter_map(axis).collect()
    }

    /// The comparisons that the root reaches.
    pub fn comparisons(&self) -> impl Iterator<Item = &Entry> {
        self.learned.iter().filter(|of| of.compares(|_| true)).map(|of| &of.entry)
    }

    fn is_small(&self) -> bool {
        bytes(self.reached, self.nodes) == FEW
    }

    /// How many path entries there are.
    fn paths(&self) -> usize {
        self.pattern.entries.iter().filter(|entry| entry.is_path()).count()
    }

    /// Whether a path is used that still has its rows, after as many others were learned as there are slots.
    fn keeps_an_old_path(&self) -> bool {
        let since = |path: usize, of: &Learned| {
            let others = self.learned.iter().filter(|other| other.slot.is_some());
            others.filter(|other| (path + 1..of.number).contains(&other.number)).count()
        };
        self.reached > self.slots
            && self
                .learned
                .iter()
                .any(|of| of.with(|ends| *ends == Ends::Rows).any(|path| since(path, of) >= self.slots))
    }

    /// Whether a path is compared by its rows that it had when another, which was used again, lost its own.
    fn keeps_another(&self) -> bool {
        let Some(takes) = self.learned.iter().find(|of| of.takes()) else { return false };
        let mut behind = self.learned.iter().filter(|of| of.number > takes.number);
        behind.any(|of| {
            of.compares(|_| true) && of.with(|ends| *ends == Ends::Rows).any(|path| path < takes.number)
        })
    }

    fn given(&self, shows: impl Fn(&Slot) -> bool) -> bool {
        self.learned.iter().filter_map(|of| of.slot.as_ref()).any(shows)
    }

    /// Whether a path is brought back for three entries or more.
    fn brings_back_repeatedly(&self) -> bool {
        let mut times = vec![0; self.pattern.entries.len()];
        self.learned.iter().flat_map(Learned::filled).for_each(|slot| times[slot.path] += 1);
        times.into_iter().any(|times| times >= 3)
    }

    /// Whether a path is given a slot whose path is still used, but by entries alone that aren't reached.
    fn forgets_what_is_used_unreached(&self) -> bool {
        let uses_later = |path: usize, from: usize| {
            self.pattern.entries[from..].iter().any(|entry| paths_of(entry).contains(&Some(path)))
        };
        let unused = |slot: &Slot| slot.holder.filter(|_| slot.given == Given::Unused);
        let forgotten = |of: &Learned| of.slot.as_ref().and_then(unused);
        self.learned.iter().any(|of| forgotten(of).is_some_and(|path| uses_later(path, of.number)))
    }

    fn has_an_unreached_comparison(&self) -> bool {
        let mut entries = zip(&self.pattern.entries, self.pattern.reached());
        entries.any(|(entry, reached)| !reached && matches!(entry, Entry::Compare(..)))
    }

    /// The channels on which reached entries compare.
    fn channels(&self) -> impl Iterator<Item = usize> {
        let compared = |channel: &u8| {
            let on = |of: &Learned| matches!(of.entry, Entry::Compare(_, on, ..) if on == *channel);
            self.learned.iter().any(on)
        };
        (0..=MAX_CHANNEL).filter(compared).map(usize::from)
    }
}

impl Judged<'_> {
    /// Whether a model was judged and what was kept of the paths shows it.
    fn kept(&self, shows: impl Fn(&Kept) -> bool) -> bool {
        self.paths.as_ref().is_some_and(shows)
    }

    fn learned(&self, shows: impl Fn(&Learned) -> bool) -> bool {
        self.kept(|kept| kept.learned.iter().any(&shows))
    }

    /// Whether paths were compared whose ends are had so.
    fn compared(&self, shows: impl Fn(&[Ends]) -> bool) -> bool {
        self.learned(|of| of.compares(&shows))
    }

    /// Whether a path got its rows back for an entry so.
    fn brought_back(&self, shows: impl Fn(&Learned, &Slot) -> bool) -> bool {
        self.learned(|of| of.filled().any(|slot| shows(of, slot)))
    }

    /// Whether such a path got its rows back.
    fn restored(&self, is_such: impl Fn(&Entry) -> bool) -> bool {
        self.kept(|kept| {
            kept.learned
                .iter()
                .flat_map(Learned::filled)
                .any(|slot| is_such(&kept.pattern.entries[slot.path]))
        })
    }

    fn given(&self, shows: impl Fn(&Slot) -> bool) -> bool {
        self.kept(|kept| kept.given(&shows))
    }

    /// Whether values were compared of which one shows it, told those of its bucket that earlier nodes have.
    fn in_buckets(&self, shows: fn(&[u16], u16) -> bool) -> bool {
        let of_bucket = |values: &[u16], value: u16| -> Vec<u16> {
            values.iter().copied().filter(|other| other % BUCKETS == value % BUCKETS).collect()
        };
        self.kept(|kept| {
            kept.channels().any(|channel| {
                let values: Vec<u16> =
                    (0..kept.nodes).map(|node| self.count(13 + 12 * node + 2 * channel)).collect();
                let mut nodes = values.iter().enumerate();
                nodes.any(|(node, &value)| shows(&of_bucket(&values[..node], value), value))
            })
        })
    }
}
