//! What a typed pattern says of a model by its text alone, whatever entries a file of it would have.

use oracle::finding::{Finding, Refusal};
use oracle::model;
use oracle::typed;

/// Judges a model of a typed pattern. What is refused goes by the file, what is found by the text.
pub fn judge(text: &[u8], model: &[u8], area: &mut [u8]) -> Finding {
    judged(text, model, area).unwrap_or_else(Finding::Refused)
}

fn judged(text: &[u8], model: &[u8], area: &mut [u8]) -> Result<Finding, Refusal> {
    let file = typed::type_pattern(text, usize::MAX)?;
    match model::judge(&file, model, area) {
        Finding::Met { .. } | Finding::Unmet => {
            let nodes = typed::holds(&typed::parse(text)?, &model::parse(model)?);
            Ok(model::found(nodes))
        }
        refused => Ok(refused),
    }
}
