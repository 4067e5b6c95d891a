//! The three implementations that are compared, behind one form.

use super::case::{Case, Proposal};
use std::fmt::Display;
use std::hint::black_box;
use std::time::{Duration, Instant};

/// An implementation: its judgement; its finding, as the bench program prints it, or its other answer; and the time
/// that it takes for so many judgements one after the other.
pub struct Judge {
    pub name: &'static str,
    pub run: fn(&Case, &mut [u8]),
    pub finding: fn(&Case, &mut [u8]) -> String,
    pub time: fn(&Case, &mut [u8], u64) -> Duration,
}

pub const PROVED: Judge = judge::<Proved>("proved");
pub const ORACLE: Judge = judge::<Oracle>("oracle");
pub const FAST: Judge = judge::<Fast>("fast");

pub const JUDGES: [Judge; 3] = [PROVED, ORACLE, FAST];

/// The operations of documents 01 and 02.
trait Operations {
    type Finding: Display;
    fn read(pattern: &[u8]) -> Self::Finding;
    fn judge_model(pattern: &[u8], model: &[u8], area: &mut [u8]) -> Self::Finding;
    fn judge_tableau(pattern: &[u8], tableau: &[u8], area: &mut [u8]) -> Self::Finding;
    fn order(old: &[u8], destination: &mut [u8]) -> Self::Finding;
    fn type_pattern(text: &[u8], destination: &mut [u8]) -> Self::Finding;
    fn model_area(pattern: &[u8]) -> usize;
}

/// Implements the operations by functions of that form.
macro_rules! operations {
    ($name:ident, $finding:ty, $read:path, $judge_model:path, $judge_tableau:path, $order:path, $type:path, $area:path) => {
        struct $name;

        impl Operations for $name {
            type Finding = $finding;

            fn read(pattern: &[u8]) -> $finding {
                $read(pattern)
            }

            fn judge_model(pattern: &[u8], model: &[u8], area: &mut [u8]) -> $finding {
                $judge_model(pattern, model, area)
            }

            fn judge_tableau(pattern: &[u8], tableau: &[u8], area: &mut [u8]) -> $finding {
                $judge_tableau(pattern, tableau, area)
            }

            fn order(old: &[u8], destination: &mut [u8]) -> $finding {
                $order(old, destination)
            }

            fn type_pattern(text: &[u8], destination: &mut [u8]) -> $finding {
                $type(text, destination)
            }

            fn model_area(pattern: &[u8]) -> usize {
                $area(pattern)
            }
        }
    };
}

operations!(
    Proved,
    unit::Finding,
    unit::read,
    unit::judge_model,
    unit::judge_tableau,
    unit::order,
    unit::type_pattern,
    unit::model_area
);
operations!(
    Oracle,
    oracle::finding::Finding,
    oracle::pattern::read,
    oracle::model::judge,
    oracle::tableau::judge,
    oracle::model::order,
    crate::differential::implementation::type_pattern,
    oracle::model::area_wanted
);
operations!(
    Fast,
    oracle::finding::Finding,
    crate::fast::read,
    crate::fast::judge_model,
    crate::fast::judge_tableau,
    crate::fast::order,
    crate::fast::type_pattern,
    crate::fast::model_area
);

const fn judge<O: Operations>(name: &'static str) -> Judge {
    Judge { name, run: run::<O>, finding: finding::<O>, time: time::<O> }
}

/// What an operation answers: a finding, or a number of bytes.
enum Answer<F> {
    Finding(F),
    Bytes(usize),
}

fn answer<O: Operations>(case: &Case, area: &mut [u8]) -> Answer<O::Finding> {
    Answer::Finding(match &case.proposal {
        Proposal::None => O::read(&case.pattern),
        Proposal::Area => return Answer::Bytes(O::model_area(&case.pattern)),
        Proposal::Model(model) => O::judge_model(&case.pattern, model, area),
        Proposal::Tableau(tableau) => O::judge_tableau(&case.pattern, tableau, area),
        Proposal::Old(old) => O::order(old, area),
        Proposal::Text(text) => O::type_pattern(text, area),
    })
}

fn run<O: Operations>(case: &Case, area: &mut [u8]) {
    black_box(answer::<O>(case, area));
}

fn finding<O: Operations>(case: &Case, area: &mut [u8]) -> String {
    match answer::<O>(case, area) {
        Answer::Finding(finding) => finding.to_string(),
        Answer::Bytes(bytes) => format!("area {bytes}"),
    }
}

fn time<O: Operations>(case: &Case, area: &mut [u8], times: u64) -> Duration {
    let start = Instant::now();
    for _ in 0..times {
        run::<O>(black_box(case), area);
    }
    start.elapsed()
}
