//! `riser order`: a model file with its edges in order, each once, from an older one.

use super::{PROPOSAL, UNNAMED};
use crate::agreed;
use crate::arguments::{Arguments, OVER, Opt};
use crate::command::{Command, Failure, Status};
use crate::files::{self, target};
use crate::output;
use oracle::explain::refusal;
use oracle::explain::wording::count;

pub const ORDER: Command = Command {
    name: "order",
    summary: "put the edges of an older block file in order",
    usage: "riser order [-o FILE] [--over] OLD",
    about: "\
Writes a block (a model file) from OLD, an older one whose edges stand in any
order and may be repeated: nodes and names as they stand, each edge once, rising
by from, then axis, then to. Judged with any pattern, it gets the finding that
OLD would get if the order of edges were no matter.
",
    options: &[PROPOSAL, Opt { help: "replace FILE if it is there; it may be OLD itself", ..OVER }],
    examples: "\
Example: a block file from before edges had an order.

  riser order -o block.bin old-block.bin
",
    run,
};

/// Writes the new file, and says what was done.
fn run(arguments: &Arguments) -> Result<Status, Failure> {
    let [old] = arguments.files(["block"])?;
    let (new, over) = (arguments.path_or(&PROPOSAL, UNNAMED), arguments.has(&OVER));
    let bytes = files::read(old)?;
    let ordered = agreed::order(&bytes)?
        .map_err(|refused| Failure::refused(&files::name(old), &refusal::of_model(&bytes, refused)))?;
    let itself = if over { &[][..] } else { &[(Some(old), "the old file; --over replaces it")] };
    let target = target::claim(new, over, itself)?;
    let same = target.is(old)?;
    if !same || ordered != bytes {
        target.write(&ordered)?;
    }
    output::tell("riser order", &format!("{}: {}", files::name(new), done(&bytes, &ordered, same)));
    Ok(Status::Found)
}

/// What was done, in a line.
fn done(old: &[u8], new: &[u8], same: bool) -> String {
    let kept = u16::from_le_bytes([new[7], new[8]]).into();
    let repeats = (old.len() - new.len()) / 3;
    let edges = edges(kept + repeats);
    match repeats {
        0 if old == new && same => format!("{edges}, already in order: left as it is"),
        0 if old == new => format!("{edges}, already in order: copied as it is"),
        0 => format!("{edges}, no repeats: put in order"),
        _ => format!(
            "{edges}, {} dropped: {} in order",
            count(repeats, "repeat", "repeats"),
            self::edges(kept)
        ),
    }
}

fn edges(number: usize) -> String {
    count(number, "edge", "edges")
}
