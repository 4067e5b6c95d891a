//! Judging a tableau: refusals 9 and 15 to 18, then the walk along its branches.

use super::pattern;
use super::walk::{self, Lines, Step};
use super::{body, refused};
use oracle::finding::{Finding, Refusal};

/// Judging a tableau. The branch's lines stand in the area itself, which is zeroed once the walk has begun.
pub fn judge(bytes: &[u8], tableau: &[u8], area: &mut [u8]) -> Result<Finding, Refusal> {
    let entries = pattern::parse(bytes)?;
    let (lines, _) = area.as_chunks_mut::<8>();
    let lines: &mut Lines = lines.first_chunk_mut().ok_or(refused(9))?;
    let (start, steps) = parse(tableau)?;
    let used = pattern::used_names(entries);
    if start > 127 || used >> start & 1 == 1 {
        return Err(refused(18));
    }
    let found = walk::walk(entries, steps, lines, start, used);
    lines.fill([0; 8]);
    found
}

/// The start name and the steps, or refusals 15 to 17.
fn parse(bytes: &[u8]) -> Result<(u8, &[Step]), Refusal> {
    let (header, rest) = body::<8>(bytes, b"TAB", 15)?;
    let &[_, _, _, _, _, start, low, high] = header;
    let count = u16::from_le_bytes([low, high]) as usize;
    let (steps, odd) = rest.as_chunks::<6>();
    if count == 0 || count > 4096 || steps.len() != count || !odd.is_empty() {
        return Err(refused(17));
    }
    Ok((start, steps))
}
