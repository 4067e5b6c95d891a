//! What the proved library finds. The independent implementation, from which the words come, must find the same: where
//! the two differ, a failure says so, and nothing is shown or written.

use crate::command::{Failure, Status};
use oracle::explain::{Explained, explain};
use oracle::finding::{Finding, Refusal};
use oracle::pattern::Pattern;
use oracle::{model, pattern, tableau, typed};
use unit::{MODEL_LONGEST, PATTERN_LONGEST, TABLEAU_AREA};

/// What a file that is written comes to: its bytes, or why there is none.
pub type Written = Result<Vec<u8>, Refusal>;

/// Reads a pattern.
pub fn read(bytes: &[u8]) -> Result<Result<Pattern, Refusal>, Failure> {
    agreed(found(unit::read(bytes)), pattern::read(bytes))?;
    Ok(pattern::parse(bytes))
}

/// Judges a proposal, a tableau or a model, and explains it.
pub fn explained(pattern: &[u8], proposal: &[u8]) -> Result<Explained, Failure> {
    let finding = judge(pattern, proposal)?;
    let explained = explain(pattern, proposal);
    agreed(finding, explained.conclusion.finding)?;
    Ok(explained)
}

fn judge(pattern: &[u8], proposal: &[u8]) -> Result<Finding, Failure> {
    if tableau::is_marked(proposal) {
        let mut areas = [[0; TABLEAU_AREA]; 2];
        let [proved, independent] = &mut areas;
        let proved = unit::judge_tableau(pattern, proposal, proved);
        agreed(found(proved), tableau::judge(pattern, proposal, independent))
    } else {
        let wanted = unit::model_area(pattern);
        let proved = unit::judge_model(pattern, proposal, &mut vec![0; wanted]);
        agreed(found(proved), model::judge(pattern, proposal, &mut vec![0; wanted]))
    }
}

/// The pattern file of a typed pattern.
pub fn type_pattern(text: &[u8]) -> Result<Written, Failure> {
    let mut destination = [0; PATTERN_LONGEST];
    let proved = written(unit::type_pattern(text, &mut destination), &destination);
    agreed_file(proved, typed::type_pattern(text, PATTERN_LONGEST))
}

/// The model file of an older one, with its edges in order.
pub fn order(old: &[u8]) -> Result<Written, Failure> {
    let mut destination = [0; MODEL_LONGEST];
    let proved = written(unit::order(old, &mut destination), &destination);
    agreed_file(proved, model::in_order(old))
}

/// The file at the front of a destination, or the refusal.
fn written(finding: unit::Finding, destination: &[u8]) -> Written {
    match found(finding) {
        Finding::Written { length } => Ok(destination[..length.into()].to_vec()),
        Finding::Refused(refusal) => Err(refusal),
        finding => unreachable!("an operation that writes a file doesn't find {finding}"),
    }
}

/// What the proved library found, as the independent implementation says it.
pub fn found(finding: unit::Finding) -> Finding {
    match finding {
        unit::Finding::Read { entries } => Finding::Read { entries },
        unit::Finding::Met { lowest, number } => Finding::Met { lowest, number },
        unit::Finding::Unmet => Finding::Unmet,
        unit::Finding::Closed { steps, clashes, forks, most } => {
            Finding::Closed { steps, clashes, forks, most }
        }
        unit::Finding::Written { length } => Finding::Written { length },
        unit::Finding::Refused { number, place } => Finding::Refused(Refusal { number, place }),
    }
}

/// What both found, if it is the same.
fn agreed(proved: Finding, independent: Finding) -> Result<Finding, Failure> {
    if proved == independent {
        return Ok(proved);
    }
    let message = format!(
        "the proved library finds {proved}, the independent implementation {independent}: one of the two is \
         wrong, so nothing is shown or written"
    );
    Err(Failure::new(Status::Differing, message))
}

/// What both wrote, if it is the same.
fn agreed_file(proved: Written, independent: Written) -> Result<Written, Failure> {
    agreed(length(&proved), length(&independent))?;
    if proved == independent {
        return Ok(proved);
    }
    let message = "the proved library and the independent implementation write different files: one of the two is \
                   wrong, so nothing is written";
    Err(Failure::new(Status::Differing, message.to_string()))
}

/// What writing a file finds.
fn length(written: &Written) -> Finding {
    match written {
        Ok(file) => Finding::Written { length: file.len() as u16 },
        Err(refusal) => Finding::Refused(*refusal),
    }
}

#[cfg(test)]
mod tests {
    use super::*;

    #[test]
    fn what_both_find_is_found() {
        let met = Finding::Met { lowest: 3, number: 2 };
        assert_eq!(agreed(met, met), Ok(met));
    }

    #[test]
    fn a_difference_is_told_and_nothing_is_found() {
        let others =
            [Finding::Met { lowest: 3, number: 1 }, Finding::Met { lowest: 2, number: 2 }, Finding::Unmet];
        for other in others {
            let failure = agreed(Finding::Met { lowest: 3, number: 2 }, other).expect_err("a difference");
            assert_eq!(failure.status, Status::Differing);
            let told = format!("the proved library finds met 3 2, the independent implementation {other}: ");
            assert!(failure.message.starts_with(&told), "{}", failure.message);
        }
        let refused = |place| Err(Refusal { number: 30, place });
        for (one, other) in [(refused(4), refused(5)), (refused(4), Ok(vec![1])), (Ok(vec![1]), Ok(vec![2]))]
        {
            let failure = agreed_file(one.clone(), other).expect_err("a difference");
            assert_eq!(failure.status, Status::Differing);
            assert_eq!(agreed_file(one.clone(), one.clone()), Ok(one));
        }
    }
}
