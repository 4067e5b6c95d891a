//! A judgement in plain text, so that a person can follow it: the pattern as a formula, then the model with
//! where each entry holds, or the tableau as a tree, then the finding or the refusal in a sentence.

mod conclusion;
pub mod formula;
pub mod model;
pub mod refusal;
pub mod rule;
pub mod tableau;
mod tree;
pub mod wording;

pub use conclusion::Conclusion;

use crate::pattern;
use crate::tableau::is_marked;
use formula::Formula;
use std::fmt;

/// A judgement explained: what was judged, and what it comes to.
pub struct Explained {
    body: String,
    pub conclusion: Conclusion,
}

impl fmt::Display for Explained {
    fn fmt(&self, f: &mut fmt::Formatter<'_>) -> fmt::Result {
        write!(f, "{}{}", self.body, self.conclusion)
    }
}

/// The two files explained. Like the bench program, takes the proposal for a tableau if it begins `TAB`,
/// else for a model.
pub fn explain(pattern: &[u8], proposal: &[u8]) -> Explained {
    let parsed = match pattern::parse(pattern) {
        Ok(parsed) => parsed,
        Err(refused) => {
            return Explained { body: String::new(), conclusion: refusal::of_pattern(pattern, refused) };
        }
    };
    let formula = Formula::new(&parsed);
    let Explained { body, conclusion } = if is_marked(proposal) {
        tableau::explain(&parsed, &formula, proposal)
    } else {
        model::explain(&parsed, &formula, proposal)
    };
    Explained { body: format!("{formula}\n{body}"), conclusion }
}
