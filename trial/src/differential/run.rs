//! A run over many inputs, shared among threads. Its result doesn't depend on how many there are.

use super::compare::{Comparer, Difference};
use super::fault;
use super::guarded::Against;
use super::implementation::Implementation;
use super::tally::Tally;
use crate::generate::input::Input;
use crate::generate::{BLOCK, Generator};
use std::sync::atomic::{AtomicBool, AtomicU64, Ordering::Relaxed};
use tools::progress::Progress;

/// Which inputs are run: numbers 0 to count − 1 of the seed.
#[derive(Clone, Copy, Debug)]
pub struct Run {
    pub seed: u64,
    pub count: u64,
    pub threads: usize,
}

/// The input with the least number at which an implementation differs.
#[derive(Clone, Debug)]
pub struct Failure {
    pub number: u64,
    pub input: Input,
    pub difference: Difference,
}

/// What the threads share: the next block to be taken, and whether one has failed.
struct Shared {
    next: AtomicU64,
    failed: AtomicBool,
    progress: Progress,
}

/// Where the slices of an input are put: inputs take turns.
pub fn against(number: u64) -> Against {
    if number.is_multiple_of(2) { Against::End } else { Against::Beginning }
}

impl Run {
    /// Runs all inputs: what occurred, or the first difference.
    pub fn go(self, implementations: &[Implementation]) -> Result<Tally, Box<Failure>> {
        let shared = Shared {
            next: AtomicU64::new(0),
            failed: AtomicBool::new(false),
            progress: Progress::new("differential", self.count, "inputs"),
        };
        let results = std::thread::scope(|scope| {
            let work = || self.work(&shared, implementations);
            let threads: Vec<_> = (0..self.threads).map(|_| scope.spawn(work)).collect();
            let joined = threads.into_iter().map(|thread| thread.join().expect("a thread panicked"));
            joined.collect::<Vec<_>>()
        });
        merge(results)
    }

    /// One thread: takes block after block until none is left or one has failed. Blocks are taken in
    /// order and finished, so the least number that fails is always found.
    fn work(&self, shared: &Shared, implementations: &[Implementation]) -> Result<Tally, Box<Failure>> {
        let mut generator = Generator::new(self.seed);
        let mut comparer = Comparer::new();
        let mut tally = Tally::default();
        let mut input = Input::blank();
        while !shared.failed.load(Relaxed) {
            let first = shared.next.fetch_add(1, Relaxed) * BLOCK;
            let numbers = first..self.count.min(first + BLOCK);
            if numbers.is_empty() {
                break;
            }
            shared.progress.reached(first);
            for number in numbers {
                fault::note(number);
                generator.make(number, &mut input);
                match comparer.compare(&input, against(number), implementations) {
                    Ok(finding) => tally.count(&input, finding),
                    Err(difference) => {
                        shared.failed.store(true, Relaxed);
                        return Err(Box::new(Failure { number, input, difference }));
                    }
                }
            }
        }
        Ok(tally)
    }
}

/// The sum of the tallies, or the failure with the least number.
fn merge(results: Vec<Result<Tally, Box<Failure>>>) -> Result<Tally, Box<Failure>> {
    let mut sum = Tally::default();
    let mut failures = Vec::new();
    for result in results {
        match result {
            Ok(tally) => sum.add(&tally),
            Err(failure) => failures.push(failure),
        }
    }
    match failures.into_iter().min_by_key(|failure| failure.number) {
        Some(failure) => Err(failure),
        None => Ok(sum),
    }
}
