//! What a judgement comes to.

use crate::finding::Finding;
use std::fmt;

/// A finding in words.
#[derive(Clone, Debug, PartialEq, Eq)]
pub struct Conclusion {
    pub finding: Finding,
    /// What a refusal points at, such as `step 3`; empty if it points at nothing, and of a finding.
    pub at: String,
    /// What the finding says, or what was refused, without a stop.
    pub meaning: String,
    /// Whole lines: what stands at the place of a refusal, what the numbers of a finding are. May be empty.
    pub detail: String,
}

impl Conclusion {
    /// What was found, and its meaning in a sentence.
    pub fn found(finding: Finding, meaning: &str) -> Conclusion {
        Conclusion { finding, at: String::new(), meaning: meaning.to_string(), detail: String::new() }
    }

    /// The same with further lines.
    pub fn with(self, detail: &str) -> Conclusion {
        Conclusion { detail: detail.to_string(), ..self }
    }

    /// The finding, what it points at and what it says, in one line without a stop.
    pub fn line(&self) -> String {
        let Conclusion { finding, at, meaning, .. } = self;
        match finding {
            Finding::Refused(_) if at.is_empty() => format!("{finding}: {meaning}"),
            Finding::Refused(_) => format!("{finding}, {at}: {meaning}"),
            _ => format!("{finding}. {meaning}"),
        }
    }

    /// What it says, without the finding: a sentence, and the further lines below it.
    pub fn words(&self) -> String {
        let meaning =
            if self.at.is_empty() { self.meaning.clone() } else { format!("{}: {}", self.at, self.meaning) };
        let mut letters = meaning.chars();
        let first = letters.next().map(|first| first.to_ascii_uppercase());
        first.into_iter().chain(letters).chain(['.']).collect::<String>() + &self.below()
    }

    /// The further lines, each behind a line feed.
    pub fn below(&self) -> String {
        if self.detail.is_empty() { String::new() } else { format!("\n{}", self.detail) }
    }
}

impl fmt::Display for Conclusion {
    fn fmt(&self, f: &mut fmt::Formatter<'_>) -> fmt::Result {
        writeln!(f, "Finding: {}.{}", self.line(), self.below())
    }
}
