//! Slots for the rows of paths. The proved judgement of a model keeps the ends of the paths that the root reaches,
//! from every node, as rows in slots, as many as there is room for. When a path finds none free, the one that is used
//! again last loses its own; where an entry refers to a path without rows, they are brought back, and what isn't kept
//! even so is computed anew. What is kept changes no finding. It is said here once more, so that inputs are made,
//! counted and judged wrongly in which paths lose their rows.

use oracle::pattern::{Entry, Path, Pattern};
use std::ops::Range;

/// The bytes for the rows of a small judgement, and of any other.
pub const FEW: usize = 4096;
pub const MANY: usize = 49_152;

/// The bytes of a row.
pub const ROW: usize = 8;

/// The most slots. The first is that of the end of path.
pub const MOST: usize = 255;

/// The number that stands for the end of path, and behind all entries.
const END: usize = 255;

/// By path, an entry that refers to it; 0 where there is none. The end of path is the last.
type Uses = [usize; END + 1];

/// The slots while the entries that the root reaches are learned in their order.
pub struct Slots {
    entries: Vec<Entry>,
    reached: Vec<bool>,
    /// The last use of each path.
    last: Uses,
    /// By slot, the path entry whose rows it has.
    holders: Vec<Path>,
}

/// A path entry is given a slot.
#[derive(Clone, Copy)]
pub struct Giving {
    pub path: usize,
    /// The entry for which the path is learned: itself, or one that needs it.
    pub entry: usize,
    pub slot: usize,
    /// Whether the slot is free, or else taken from the path that is used again last.
    pub is_free: bool,
}

/// Who learns the entries that the root reaches, by slots.
pub trait Learning {
    fn slots(&self) -> &Slots;

    /// Whether a path entry gets no slot for an entry, as one of the paths that it goes on by has no rows.
    fn passes_over(&self, path: usize, _entry: usize) -> bool {
        !self.slots().hold_all_of(path)
    }

    /// Whether paths without rows get them back for an entry that needs them.
    fn brings_back(&self) -> bool {
        true
    }

    /// A path entry gets its rows in a slot.
    fn fill(&mut self, giving: Giving);

    /// Learns an entry: of a path its rows, after those that it needs have theirs. Of a node these alone.
    fn learn(&mut self, entry: usize) {
        if self.brings_back() && !self.slots().hold_all_of(entry) {
            let uses = self.slots().uses_again(entry);
            for (path, _) in uses[..entry].iter().enumerate().filter(|(_, last)| **last != 0) {
                if self.slots().lack(path) {
                    self.learn_path(path, &uses, entry);
                }
            }
        }
        if self.slots().entries[entry].is_path() {
            let uses = self.slots().last;
            self.learn_path(entry, &uses, entry);
        }
    }

    /// Learns a path entry for this entry, by these uses.
    fn learn_path(&mut self, path: usize, uses: &Uses, entry: usize) {
        if !self.passes_over(path, entry) {
            let giving = self.slots().next(path, uses, entry);
            self.fill(giving);
        }
    }
}

impl Slots {
    /// The slots for a pattern in a model of so many nodes, before any entry is learned.
    pub fn new(pattern: &Pattern, nodes: usize) -> Slots {
        let slots = slot_count(bytes(paths_reached(pattern), nodes), nodes);
        let (entries, reached) = (pattern.entries.clone(), pattern.reached());
        let mut slots = Slots { entries, reached, last: [0; END + 1], holders: vec![None; slots] };
        slots.last = slots.last_uses();
        slots
    }

    pub fn count(&self) -> usize {
        self.holders.len()
    }

    /// Those that paths are given.
    fn given(&self) -> Range<usize> {
        1..self.count()
    }

    /// The slot that has the rows of a path.
    pub fn of(&self, path: Path) -> Option<usize> {
        let Some(path) = path else { return Some(0) };
        self.given().find(|&slot| self.holders[slot] == Some(path))
    }

    pub fn hold(&self, path: Path) -> bool {
        self.of(path).is_some()
    }

    /// The paths that an entry refers to.
    pub fn paths_of(&self, entry: usize) -> Vec<Path> {
        paths_of(&self.entries[entry])
    }

    /// Whether the paths that an entry refers to have rows.
    pub fn hold_all_of(&self, entry: usize) -> bool {
        self.paths_of(entry).into_iter().all(|path| self.hold(path))
    }

    /// Whether an entry is a path without rows.
    fn lack(&self, entry: usize) -> bool {
        self.entries[entry].is_path() && !self.hold(Some(entry))
    }

    pub fn holder(&self, slot: usize) -> Path {
        self.holders[slot]
    }

    /// The paths that have rows.
    pub fn holders(&self) -> impl Iterator<Item = usize> {
        self.given().filter_map(|slot| self.holders[slot])
    }

    /// Whether an entry from this one on refers to the path.
    pub fn is_used(&self, path: usize, from: usize) -> bool {
        self.last[path] != 0 && self.last[path] >= from
    }

    /// The next entry from this one on that refers to the path.
    pub fn next_use(&self, path: usize, from: usize) -> Option<usize> {
        Some(self.next_uses(from)[path]).filter(|&entry| entry != 0)
    }

    /// The first slot whose path isn't used from this path on, by these uses; 0 is none.
    fn free(&self, path: usize, uses: &Uses) -> Option<usize> {
        self.given().find(|&slot| uses[number(self.holders[slot])] < path.max(1))
    }

    /// The slot for a path that is learned for an entry: a free one, else that of the path whose next use from the
    /// entry on is the latest, of two the lower.
    fn next(&self, path: usize, uses: &Uses, entry: usize) -> Giving {
        let free = self.free(path, uses);
        let latest = || {
            let next = self.next_uses(entry);
            let next_use = |slot: &usize| next[number(self.holders[*slot])];
            self.given().rev().max_by_key(next_use).expect("there are two slots or more")
        };
        Giving { path, entry, slot: free.unwrap_or_else(latest), is_free: free.is_some() }
    }

    /// The slot is given to a path, or has nobody's rows.
    pub fn give(&mut self, slot: usize, path: Path) {
        self.holders[slot] = path;
    }

    /// The path gets the slot, which nobody has meanwhile, if those that it goes on by have rows even so.
    pub fn fill(&mut self, Giving { path, slot, .. }: Giving) {
        self.give(slot, None);
        if self.hold_all_of(path) {
            self.give(slot, Some(path));
        }
    }

    fn last_uses(&self) -> Uses {
        let mut last = [0; END + 1];
        for entry in 0..self.entries.len() {
            self.note_reached(&mut last, entry);
        }
        last[END] = 0;
        last
    }

    /// The next uses from an entry on.
    fn next_uses(&self, from: usize) -> Uses {
        let mut next = [0; END + 1];
        for entry in (from..self.entries.len()).rev() {
            self.note_reached(&mut next, entry);
        }
        next
    }

    /// An entry that the root reaches uses its paths.
    fn note_reached(&self, uses: &mut Uses, entry: usize) {
        if self.reached[entry] {
            self.paths_of(entry).into_iter().for_each(|path| uses[number(path)] = entry);
        }
    }

    /// Until when each path is used while those that an entry needs are learned again: those to the last that needs
    /// them, and what is used behind the entry to the end.
    fn uses_again(&self, entry: usize) -> Uses {
        let mut uses = self.needed_uses(entry);
        for (until, last) in uses.iter_mut().zip(self.last) {
            if last > entry {
                *until = END;
            }
        }
        uses[END] = 0;
        uses
    }

    /// The last uses, up to an entry, of the paths that it refers to and of those that paths without rows among them go
    /// on by.
    fn needed_uses(&self, entry: usize) -> Uses {
        let mut uses = [0; END + 1];
        for needed in (0..=entry).rev() {
            if needed == entry || self.lack(needed) && uses[needed] != 0 {
                for path in self.paths_of(needed) {
                    let last = &mut uses[number(path)];
                    *last = needed.max(*last);
                }
            }
        }
        uses
    }
}

/// The number of a path.
fn number(path: Path) -> usize {
    path.unwrap_or(END)
}

/// How many slots so many bytes have room for.
pub fn slot_count(bytes: usize, nodes: usize) -> usize {
    MOST.min(bytes / (ROW * nodes))
}

/// The bytes for the rows of so many paths.
pub fn bytes(paths: usize, nodes: usize) -> usize {
    if ROW * nodes * (paths + 1) <= FEW { FEW } else { MANY }
}

/// How many path entries the root reaches.
pub fn paths_reached(pattern: &Pattern) -> usize {
    let entries = pattern.entries.iter().zip(pattern.reached());
    entries.filter(|(entry, reached)| *reached && entry.is_path()).count()
}

/// The paths that an entry refers to: those that it compares or goes on by.
pub fn paths_of(entry: &Entry) -> Vec<Path> {
    match *entry {
        Entry::Compare(_, _, alpha, beta) | Entry::Fork(alpha, beta) => vec![alpha, beta],
        Entry::Step(_, alpha) | Entry::Jump(_, alpha) | Entry::Test(_, alpha) => vec![alpha],
        _ => Vec::new(),
    }
}

#[cfg(test)]
mod tests {
    use super::*;
    use oracle::pattern::Comparison;

    /// Texts that say the rule, of which each stands once.
    fn assert_says(source: &str, texts: &[&str]) {
        for text in texts {
            assert_eq!(source.matches(text).count(), 1, "{text}");
        }
    }

    #[test]
    fn slots_are_those_of_the_proved_judgement() {
        let root = include_str!("../../../crates/learning/src/root.rt");
        assert_says(
            root,
            &[
                &format!("const FEW_ROWS: usize = {FEW};"),
                &format!("const MANY_ROWS: usize = {MANY};"),
                "are_few(path_count(q.p, &last), q.n)",
                "((paths as usize + 1) * (n as usize)) <= FEW_ROWS",
            ],
        );
        let learning = include_str!("../../../crates/learning/src/learn.rt");
        assert_says(
            learning,
            &[
                "if !memory.marks.paths_held(q.p, k) {\n        return false;",
                "memory.marks.tag(slot, END);\n    if fill(q, memory, k, slot) {\n        memory.marks.give(k, slot);\n        memory.marks.tag(slot, k);",
                "if !memory.marks.paths_held(q.p, j) {\n            return;",
                "free_slot(q.p, &memory.marks, self.last, uses, self.slots, k, j)",
                "if sort_at(self.q.p, j).is_node() || memory.marks.is_held(j) || uses[j as usize] == 0 {\n            return;",
                "uses_again(self.q.p, &memory.marks, self.last, k, &mut uses);\n        for j in 0..k {",
                "if memory.marks.paths_held(self.q.p, k) {\n            return;\n        }\n        self.learn_needed(",
                "self.bring_back(memory, k);\n        if sort_at(self.q.p, k).is_node() {",
                "self.learn_in_slot(memory, self.last, k, k);",
                "for k in 0..p[5] {\n            if self.last[k as usize] != 0 {\n                self.learn(",
            ],
        );
        let uses = include_str!("../../../crates/slots/src/uses.rt");
        assert_says(
            uses,
            &[
                "if is_reference(field) & replaced(uses[value as usize]) {",
                "fn is_none(noted: u8) -> bool {\n    noted == 0",
                "refer_to_parts(p, last, &is_none, j);",
                "for j in (0..count).rev() {",
                "let least = j.max(1);\n    for slot in 1..slots {",
                "if uses[path as usize] < least {\n            return slot;",
                "taken_slot(p, marks, last, slots, k)\n",
                "for j in (k..p[5]).rev() {\n        if last[j as usize] != 0 {\n            refer_to_parts(p, next, &|_| true, j);",
                "if next[first as usize] < next[second as usize] {\n        return t;",
                "let mut latest = 1;\n    for slot in 2..slots {",
                "latest = later_slot(marks, next, latest, slot);",
                "refer_to_parts(p, uses, &is_none, k);\n    for j in (0..k).rev() {",
                "if is_lost(p, marks, j) & (uses[j as usize] != 0) {",
                "sort_at(p, j).is_path() & !marks.is_held(j)",
                "for r in 0..END {\n        if k < last[r as usize] {\n            uses[r as usize] = END;",
                "needed_uses(p, marks, k, uses);\n    keep_later(last, k, uses);\n    uses[END as usize] = 0;",
                "last[END as usize] = 0;",
            ],
        );
        let marks = include_str!("../../../crates/slots/src/marks.rt");
        assert_says(marks, &[&format!("slots.min({MOST}) as u8")]);
    }

    /// Slots alone, and who was given one.
    struct Alone {
        slots: Slots,
        givings: Vec<Giving>,
    }

    impl Learning for Alone {
        fn slots(&self) -> &Slots {
            &self.slots
        }

        fn fill(&mut self, giving: Giving) {
            self.slots.fill(giving);
            self.givings.push(giving);
        }
    }

    impl Alone {
        fn new(entries: &[Entry]) -> Alone {
            let pattern = Pattern { entries: entries.to_vec() };
            Alone { slots: Slots::new(&pattern, 64), givings: Vec::new() }
        }

        /// Learns the entries before this one.
        fn until(mut self, entry: usize) -> Alone {
            (0..entry).for_each(|entry| self.learn(entry));
            self.givings.clear();
            self
        }

        /// Learns an entry: the paths that were given a slot for it, each with the slot and whether that was free.
        fn learned(&mut self, entry: usize) -> Vec<(usize, usize, bool)> {
            self.givings.clear();
            self.learn(entry);
            self.givings.iter().map(|giving| (giving.path, giving.slot, giving.is_free)).collect()
        }
    }

    /// As many paths as there are slots for and one more.
    const PATHS: usize = 96;

    fn compare(one: usize, other: usize) -> Entry {
        Entry::Compare(Comparison::Same, 0, Some(one), Some(other))
    }

    /// Joins all nodes behind the paths.
    fn join(entries: &mut Vec<Entry>) {
        for node in PATHS..entries.len() - 1 {
            let last = entries.len() - 1;
            entries.push(Entry::Both(node, last));
        }
    }

    /// 96 paths, compared two by two, these two last.
    fn compared_last(paths: Vec<Entry>, last: [usize; 2]) -> Vec<Entry> {
        let mut entries = paths;
        let others: Vec<usize> = (0..PATHS).filter(|path| !last.contains(path)).collect();
        entries.extend(others.chunks(2).map(|pair| compare(pair[0], pair[1])));
        entries.push(compare(last[0], last[1]));
        join(&mut entries);
        entries
    }

    fn jumps() -> Vec<Entry> {
        (0..PATHS as u8).map(|name| Entry::Jump(name, None)).collect()
    }

    #[test]
    fn the_path_that_is_used_again_last_gives_its_slot_of_two_the_lower() {
        let mut alone = Alone::new(&compared_last(jumps(), [0, 1]));
        assert_eq!(alone.slots.count(), PATHS);
        for path in 0..95 {
            assert_eq!(alone.learned(path)[0].1, path + 1);
        }
        assert_eq!(alone.slots.free(95, &alone.slots.last), None);
        let last = alone.slots.next_use(0, 95);
        assert_eq!(last, alone.slots.next_use(1, 95));
        assert!((2..95).all(|path| alone.slots.next_use(path, 95) < last));
        assert_eq!(alone.learned(95), [(95, 1, false)]);
        assert!(!alone.slots.hold(Some(0)) && alone.slots.hold(Some(1)));
    }

    #[test]
    fn a_path_that_lost_its_rows_gets_them_back_for_the_entry_that_needs_them() {
        let entries = compared_last(jumps(), [1, 2]);
        let last = entries.iter().position(|entry| *entry == compare(1, 2)).expect("they are compared");
        let mut alone = Alone::new(&entries).until(last);
        assert!(!alone.slots.hold(Some(1)) && alone.slots.hold(Some(2)));
        assert_eq!(alone.learned(last), [(1, 1, true)]);
        assert!(alone.slots.hold_all_of(last));
    }

    #[test]
    fn a_slot_is_free_for_entry_0_too() {
        let entries = compared_last(jumps(), [0, 1]);
        let last = entries.iter().position(|entry| *entry == compare(0, 1)).expect("they are compared");
        let mut alone = Alone::new(&entries).until(last);
        assert!(!alone.slots.hold(Some(0)));
        assert_eq!(alone.learned(last), [(0, 1, true)]);
        assert!(alone.slots.hold_all_of(last));
    }
}
