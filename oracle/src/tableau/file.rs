//! The tableau file: refusals 15 to 18, and writing one.

use super::Tableau;
use super::rules::Step;
use crate::bytes::{FORMAT_VERSION, u16_at};
use crate::finding::Refusal;
use crate::pattern::{MAX_NAME, Pattern};

pub const MAX_STEPS: usize = 4096;

const MARK: &[u8] = b"TAB";
pub const HEADER_BYTES: usize = 8;
pub const STEP_BYTES: usize = 6;

/// The bytes of the longest tableau file, which is longer than any pattern or model file.
pub const LONGEST: usize = HEADER_BYTES + STEP_BYTES * MAX_STEPS;

/// Whether a proposal is to be judged as a tableau, as the bench program does it.
pub fn is_marked(proposal: &[u8]) -> bool {
    proposal.starts_with(MARK)
}

/// Refusals 15 to 18, or the tableau.
pub fn parse(pattern: &Pattern, bytes: &[u8]) -> Result<Tableau, Refusal> {
    let refused = |number| Err(Refusal { number, place: 0 });
    if bytes.len() < HEADER_BYTES || !bytes.starts_with(MARK) {
        return refused(15);
    }
    if u16_at(bytes, 3) != FORMAT_VERSION {
        return refused(16);
    }
    let (start, count) = (bytes[5], u16_at(bytes, 6) as usize);
    if !(1..=MAX_STEPS).contains(&count) || bytes.len() != HEADER_BYTES + STEP_BYTES * count {
        return refused(17);
    }
    if start > MAX_NAME || pattern.uses(start) {
        return refused(18);
    }
    Ok(Tableau { start, steps: bytes[HEADER_BYTES..].chunks_exact(STEP_BYTES).map(parse_step).collect() })
}

fn parse_step(record: &[u8]) -> Step {
    Step { rule: record[0], p: u16_at(record, 1), q: u16_at(record, 3), argument: record[5] }
}

impl Tableau {
    /// The tableau file's bytes.
    pub fn to_bytes(&self) -> Vec<u8> {
        let mut bytes = MARK.to_vec();
        bytes.extend(FORMAT_VERSION.to_le_bytes());
        bytes.push(self.start);
        bytes.extend((self.steps.len() as u16).to_le_bytes());
        for step in &self.steps {
            bytes.push(step.rule);
            bytes.extend(step.p.to_le_bytes());
            bytes.extend(step.q.to_le_bytes());
            bytes.push(step.argument);
        }
        bytes
    }
}
