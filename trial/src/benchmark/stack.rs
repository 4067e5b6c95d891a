//! How much stack a judgement uses: the stack below it is painted beforehand, and what has lost its paint
//! afterwards was used.

use super::case::{AREA, Case};
use super::judge::Judge;
use std::hint::black_box;
use std::thread;

/// The stack of the thread that judges, and how far below the current frame it is painted.
const STACK: usize = 16 << 20;
const PAINTED: usize = 8 << 20;
/// The frames of painting and looking stay above this depth, the judgement's below.
const MARGIN: usize = 64 << 10;

const PAINT: u8 = 0x5a;

/// Bytes of stack that a judgement uses below its caller's frame.
pub fn bytes(judge: &Judge, case: &Case) -> usize {
    let measured = || {
        let mut area = vec![0; AREA];
        let here = 0u8;
        let top = (&raw const here).addr();
        paint(top);
        let end = lowered(|| (judge.run)(case, &mut area));
        end - deepest(top)
    };
    thread::scope(|scope| {
        let started = thread::Builder::new().stack_size(STACK).spawn_scoped(scope, measured);
        started.expect("a thread starts").join().expect("a judgement ends")
    })
}

/// Runs in a frame that begins below the margin, and gives where that frame ends.
#[inline(never)]
fn lowered(run: impl FnOnce()) -> usize {
    let frame = [0u8; 2 * MARGIN];
    let end = black_box(&frame).as_ptr().addr();
    run();
    black_box(&frame);
    end
}

/// The bytes to paint: between the margin and the painted depth below `top`.
fn below(top: usize) -> std::ops::Range<usize> {
    top - PAINTED..top - MARGIN
}

#[inline(never)]
fn paint(top: usize) {
    for address in below(top) {
        let byte = std::ptr::with_exposed_provenance_mut::<u8>(address);
        // SAFETY: the byte lies in this thread's own stack, of which `PAINTED` is half at most, and below the
        // frames in use: this function's own and those it calls end within the margin.
        unsafe { byte.write_volatile(PAINT) };
    }
}

/// The lowest address that was used since.
#[inline(never)]
fn deepest(top: usize) -> usize {
    let used = |&address: &usize| {
        let byte = std::ptr::with_exposed_provenance::<u8>(address);
        // SAFETY: as in `paint`, which wrote the byte.
        unsafe { byte.read_volatile() != PAINT }
    };
    below(top).find(used).unwrap_or(top)
}

#[cfg(test)]
mod tests {
    use super::*;
    use crate::benchmark::case::Proposal;
    use crate::benchmark::inputs;
    use crate::benchmark::judge::PROVED;

    /// What `include/riser.h` states for the operation.
    fn stated(proposal: &Proposal) -> usize {
        match proposal {
            Proposal::None | Proposal::Area => 2560,
            Proposal::Model(_) => 61_440,
            Proposal::Tableau(_) => 16_384,
            Proposal::Old(_) => 4608,
            Proposal::Text(_) => 22_528,
        }
    }

    /// That the walk's last call is a jump is the compiler's doing, and no proof says so.
    #[test]
    fn the_deepest_cases_keep_to_the_stack_that_the_header_states() {
        for case in inputs::deepest() {
            let bytes = bytes(&PROVED, &case);
            assert!(bytes <= stated(&case.proposal), "{} takes {bytes} bytes", case.name);
        }
    }
}
