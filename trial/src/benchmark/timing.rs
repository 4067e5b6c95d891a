//! Timing: each implementation in turn, several rounds, the least time of a round.

use super::case::{AREA, Case};
use super::judge::JUDGES;
use std::time::{Duration, Instant};

/// A round of one implementation on one input takes about so long, or one judgement if that takes longer.
/// Rounds are short and many: some are then free of interruptions.
const ROUND: Duration = Duration::from_millis(1);
const ROUNDS: usize = 40;
/// After so long with one input, and three rounds, no more rounds follow.
const ENOUGH: Duration = Duration::from_millis(400);

/// Nanoseconds of one judgement, by implementation in the order of `JUDGES`. The rounds take turns, so that a
/// change of the machine's speed meets all implementations; the least time is the least disturbed.
pub fn nanoseconds(case: &Case) -> [f64; 3] {
    let mut area = vec![0; AREA];
    let times = JUDGES.map(|judge| repetitions(|times| (judge.time)(case, &mut area, times)));
    let mut least = [f64::INFINITY; 3];
    let start = Instant::now();
    for round in 0..ROUNDS {
        if round >= 3 && start.elapsed() > ENOUGH {
            break;
        }
        for ((judge, times), least) in JUDGES.iter().zip(times).zip(&mut least) {
            let spent = (judge.time)(case, &mut area, times).as_secs_f64();
            *least = least.min(spent * 1e9 / times as f64);
        }
    }
    least
}

/// How many judgements make a round: doubled until they take long enough to be measured, then scaled.
fn repetitions(mut time: impl FnMut(u64) -> Duration) -> u64 {
    let mut times = 1;
    loop {
        let spent = time(times);
        if spent >= ROUND / 4 {
            let scale = ROUND.as_secs_f64() / spent.as_secs_f64();
            return (times as f64 * scale).ceil() as u64;
        }
        times *= 2;
    }
}
