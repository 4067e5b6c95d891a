//! Mutations of a file: of its bits and bytes, of its length, of its counts and of its records.

use oracle::random::Random;

/// The three sorts of file.
#[derive(Clone, Copy, Debug, PartialEq, Eq)]
pub enum Sort {
    Pattern,
    Model,
    Tableau,
}

/// Values at which an answer may change: the limits of fields, kinds and rules, and their neighbours.
pub const BORDERS: [u8; 19] = [0, 1, 2, 3, 4, 7, 8, 11, 12, 13, 25, 26, 31, 32, 63, 127, 128, 254, 255];

/// A row of records of one size in a file, and the header field that counts them.
#[derive(Clone, Copy, Debug)]
struct Records {
    first: usize,
    size: usize,
    count: usize,
    counter: Counter,
}

/// Where a file says how many records it has, in one byte or two.
#[derive(Clone, Copy, Debug)]
struct Counter {
    at: usize,
    wide: bool,
}

/// Changes a file of the sort by one mutation, seldom by up to three.
pub fn mutate(random: &mut Random, sort: Sort, file: &mut Vec<u8>) {
    let times = if random.once_in(4) { random.between(2, 3) } else { 1 };
    for _ in 0..times {
        match random.below(12) {
            0..3 => change_byte(random, file),
            3 => change_length(random, file),
            4 => lie(random, sort, file),
            5 => exchange(random, sort, file),
            6 => drop(random, sort, file),
            7 => repeat(random, sort, file),
            8 if sort == Sort::Tableau => exchange_lines(random, file),
            9 | 10 if sort == Sort::Tableau => exchange_rule(random, file),
            _ => change_field(random, sort, file),
        }
    }
}

/// Flips a bit of the file, or gives a byte another value.
fn change_byte(random: &mut Random, file: &mut [u8]) {
    if file.is_empty() {
        return;
    }
    let at = random.below(file.len());
    file[at] = changed(random, file[at]);
}

fn changed(random: &mut Random, byte: u8) -> u8 {
    match random.below(4) {
        0 => byte ^ 1 << random.below(8),
        1 => random.byte(),
        2 => random.pick(&BORDERS),
        _ => {
            if random.once_in(2) {
                byte.wrapping_add(1)
            } else {
                byte.wrapping_sub(1)
            }
        }
    }
}

/// Takes bytes off the end, or puts some there.
fn change_length(random: &mut Random, file: &mut Vec<u8>) {
    let by = if random.once_in(2) { 1 } else { random.between(1, 16) };
    if random.once_in(2) {
        file.truncate(file.len().saturating_sub(by));
    } else {
        file.extend((0..by).map(|_| random.byte()));
    }
}

/// Makes a count false and leaves the records as they are.
fn lie(random: &mut Random, sort: Sort, file: &mut [u8]) {
    let Some(records) = records(random, sort, file) else { return };
    let at = records.counter.at + usize::from(records.counter.wide && random.once_in(4));
    file[at] = changed(random, file[at]);
}

/// Exchanges two records.
fn exchange(random: &mut Random, sort: Sort, file: &mut [u8]) {
    let Some(records) = records(random, sort, file) else { return };
    let (one, other) = (records.any(random), records.any(random));
    for byte in 0..records.size {
        file.swap(one + byte, other + byte);
    }
}

/// Drops a record, and mostly says so in the count.
fn drop(random: &mut Random, sort: Sort, file: &mut Vec<u8>) {
    let Some(records) = records(random, sort, file) else { return };
    let at = records.any(random);
    file.drain(at..at + records.size);
    if !random.once_in(8) {
        records.counter.set(file, records.count - 1);
    }
}

/// Puts a copy of a record somewhere among the records, and mostly says so in the count.
fn repeat(random: &mut Random, sort: Sort, file: &mut Vec<u8>) {
    let Some(records) = records(random, sort, file) else { return };
    let copied = records.any(random);
    let at = if random.once_in(2) { copied } else { records.any(random) };
    let mut copy = [0; 12];
    copy[..records.size].copy_from_slice(&file[copied..][..records.size]);
    file.splice(at..at, copy.into_iter().take(records.size));
    if !random.once_in(8) {
        records.counter.set(file, records.count + 1);
    }
}

/// Exchanges the lines P and Q of a step, as often as not the last one.
fn exchange_lines(random: &mut Random, file: &mut [u8]) {
    let Some(records) = records(random, Sort::Tableau, file) else { return };
    let last = records.end() - records.size;
    let step = if random.once_in(2) { last } else { records.any(random) };
    file.swap(step + 1, step + 3);
    file.swap(step + 2, step + 4);
}

/// Gives a step of a rule for both or either another of these rules.
fn exchange_rule(random: &mut Random, file: &mut [u8]) {
    let Some(records) = records(random, Sort::Tableau, file) else { return };
    let mut rules = [2, 3, 24, 25];
    random.shuffle(&mut rules);
    let steps = |rule: u8| {
        let steps = (records.first..records.end()).step_by(records.size);
        steps.filter(|&step| file[step] == rule).collect::<Vec<usize>>()
    };
    if let Some(steps) = rules.map(steps).into_iter().find(|steps| !steps.is_empty()) {
        let step = random.pick(&steps);
        file[step] = rules.into_iter().rfind(|rule| *rule != file[step]).expect("there are four rules");
    }
}

/// Changes one byte of a record.
fn change_field(random: &mut Random, sort: Sort, file: &mut [u8]) {
    let Some(records) = records(random, sort, file) else { return };
    let at = records.any(random) + random.below(records.size);
    file[at] = changed(random, file[at]);
}

impl Records {
    /// Where a random record begins.
    fn any(&self, random: &mut Random) -> usize {
        self.first + self.size * random.below(self.count)
    }

    fn end(&self) -> usize {
        self.first + self.size * self.count
    }
}

impl Counter {
    fn value(self, file: &[u8]) -> usize {
        let high = if self.wide { file[self.at + 1] } else { 0 };
        usize::from(u16::from_le_bytes([file[self.at], high]))
    }

    fn set(self, file: &mut [u8], value: usize) {
        file[self.at] = value as u8;
        if self.wide {
            file[self.at + 1] = (value >> 8) as u8;
        }
    }
}

/// A row of records of the file, if it has one where its header says.
fn records(random: &mut Random, sort: Sort, file: &[u8]) -> Option<Records> {
    let header = if sort == Sort::Pattern { 6 } else { 9 };
    if file.len() < header {
        return None;
    }
    let row = |first, size, at, wide| {
        let counter = Counter { at, wide };
        Records { first, size, count: counter.value(file), counter }
    };
    let records = match sort {
        Sort::Pattern => row(6, 4, 5, false),
        Sort::Tableau => row(8, 6, 6, true),
        Sort::Model => {
            let nodes = row(9, 12, 5, false);
            let names = row(nodes.end(), 2, 6, false);
            let edges = row(names.end(), 3, 7, true);
            random.pick(&[nodes, names, names, edges, edges])
        }
    };
    (records.count > 0 && records.end() <= file.len()).then_some(records)
}
