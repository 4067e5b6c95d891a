//! What is compared: implementations of the operations of documents 01 and 02 behind one form.

use super::composed;
use crate::fast;
use crate::generate::input::Operation;
use oracle::finding::{Finding, Refusal};
use tools::agreed::found;

/// The bytes lent to an operation; the area of one that writes a file is the destination. The pattern and the
/// proposal can be changed as far as Rust knows, so that a comparison can be tested with an implementation that does
/// it.
pub struct Lent<'a> {
    pub pattern: &'a mut [u8],
    pub proposal: &'a mut [u8],
    pub area: &'a mut [u8],
}

/// An implementation of the operations.
#[derive(Clone, Copy)]
pub struct Implementation<'a> {
    pub name: &'a str,
    pub run: &'a (dyn Fn(Operation, Lent) -> Finding + Sync),
}

/// The independent implementation, which the others are compared with.
pub const ORACLE: Implementation = Implementation { name: "oracle", run: &run_oracle };
/// The implementation for speed.
pub const FAST: Implementation = Implementation { name: "fast", run: &run_fast };
/// The proved library.
pub const UNIT: Implementation = Implementation { name: "unit", run: &run_unit };

pub fn run_oracle(operation: Operation, lent: Lent) -> Finding {
    match operation {
        Operation::Reading => oracle::pattern::read(lent.pattern),
        Operation::Model => oracle::model::judge(lent.pattern, lent.proposal, lent.area),
        Operation::Tableau => oracle::tableau::judge(lent.pattern, lent.proposal, lent.area),
        Operation::Ordering => oracle::model::order(lent.proposal, lent.area),
        Operation::Ordered => oracle::model::judge_old(lent.pattern, lent.proposal, lent.area),
        Operation::Area => Finding::Area { bytes: oracle::model::area_wanted(lent.pattern) },
        Operation::Typing => type_pattern(lent.pattern, lent.area),
        Operation::Typed => composed::judge(lent.pattern, lent.proposal, lent.area),
    }
}

/// The independent implementation's typing, onto a destination.
pub fn type_pattern(text: &[u8], destination: &mut [u8]) -> Finding {
    match oracle::typed::type_pattern(text, destination.len()) {
        Ok(file) => {
            destination[..file.len()].copy_from_slice(&file);
            Finding::Written { length: file.len() as u16 }
        }
        Err(refusal) => Finding::Refused(refusal),
    }
}

fn run_fast(operation: Operation, lent: Lent) -> Finding {
    match operation {
        Operation::Reading => fast::read(lent.pattern),
        Operation::Model => fast::judge_model(lent.pattern, lent.proposal, lent.area),
        Operation::Tableau => fast::judge_tableau(lent.pattern, lent.proposal, lent.area),
        Operation::Ordering => fast::order(lent.proposal, lent.area),
        Operation::Ordered => judge_ordered(fast::order, fast::judge_model, lent),
        Operation::Area => Finding::Area { bytes: fast::model_area(lent.pattern) },
        Operation::Typing => fast::type_pattern(lent.pattern, lent.area),
        Operation::Typed => judge_typed(fast::type_pattern, fast::judge_model, lent),
    }
}

fn run_unit(operation: Operation, lent: Lent) -> Finding {
    let order = |old: &[u8], new: &mut [u8]| found(unit::order(old, new));
    let types = |text: &[u8], new: &mut [u8]| found(unit::type_pattern(text, new));
    let judge =
        |pattern: &[u8], model: &[u8], area: &mut [u8]| found(unit::judge_model(pattern, model, area));
    match operation {
        Operation::Reading => found(unit::read(lent.pattern)),
        Operation::Model => judge(lent.pattern, lent.proposal, lent.area),
        Operation::Tableau => found(unit::judge_tableau(lent.pattern, lent.proposal, lent.area)),
        Operation::Ordering => order(lent.proposal, lent.area),
        Operation::Ordered => judge_ordered(order, judge, lent),
        Operation::Area => Finding::Area { bytes: unit::model_area(lent.pattern) },
        Operation::Typing => types(lent.pattern, lent.area),
        Operation::Typed => judge_typed(types, judge, lent),
    }
}

/// Puts the model in order and judges the new file. If it can't be put in order, gives what is refused before a model,
/// or else what was refused of it.
pub fn judge_ordered(
    order: impl Fn(&[u8], &mut [u8]) -> Finding,
    judge: impl Fn(&[u8], &[u8], &mut [u8]) -> Finding,
    lent: Lent,
) -> Finding {
    let mut new = [0; unit::MODEL_LONGEST];
    match order(lent.proposal, &mut new) {
        Finding::Written { length } => judge(lent.pattern, &new[..length.into()], lent.area),
        refused => match judge(lent.pattern, &[], lent.area) {
            // What is refused first of a model without bytes: pattern and area pass.
            Finding::Refused(Refusal { number: 10, .. }) => refused,
            before => before,
        },
    }
}

/// Types the pattern and judges the model of the file, or gives what was refused of the text.
pub fn judge_typed(
    types: impl Fn(&[u8], &mut [u8]) -> Finding,
    judge: impl Fn(&[u8], &[u8], &mut [u8]) -> Finding,
    lent: Lent,
) -> Finding {
    let mut file = [0; unit::PATTERN_LONGEST];
    match types(lent.pattern, &mut file) {
        Finding::Written { length } => judge(&file[..length.into()], lent.proposal, lent.area),
        refused => refused,
    }
}
