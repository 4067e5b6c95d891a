//! `riser type`: the pattern file of a typed pattern.

use crate::agreed;
use crate::arguments::{Arguments, OVER, Opt, TEXT, TEXT_FILE, Takes};
use crate::command::{Command, Failure, Status};
use crate::files::text::Text;
use crate::files::{self, target};
use crate::output;
use oracle::explain::refusal;
use oracle::explain::wording::count;
use oracle::finding::Refusal;
use std::ffi::OsStr;
use std::os::unix::ffi::OsStrExt;
use std::path::Path;

const OUTPUT: Opt =
    Opt { name: "-o", takes: Takes::Output, help: "write FILE, not pattern.bin, whole or not at all" };

pub const TYPE: Command = Command {
    name: "type",
    summary: "write the pattern file of a typed pattern",
    usage: "riser type [-o FILE] [--over] (TEXT | -e TEXT | --text FILE)",
    about: "\
Writes the pattern file of TEXT, such as '(p0&!<1>n2)': without spaces, numbers
without leading zeros, up to 1,024 bytes. Quote it: such signs mean other things
to the shell.

  pN property, nN name, !f not, (f&g) both, (f|g) either, <N>f after on axis N,
  [x=Ny] same and [x#Ny] differ on channel N. x and y are paths, rows of /N
  step, @N jump to name N, ?f test, {x|y} fork: what follows it continues both.
  A row may be empty: the end of path.
",
    options: &[OUTPUT, OVER, TEXT, TEXT_FILE],
    examples: "\
Example: settings of which some have equal, some different values on channel 0.

  riser type '([/0=0/1]&[/0#0/1])'
",
    run,
};

/// Writes the pattern file, and says what it has.
fn run(arguments: &Arguments) -> Result<Status, Failure> {
    let text = arguments.only_text()?;
    let file = arguments.path_or(&OUTPUT, "pattern.bin");
    let bytes = text.read()?;
    let pattern = agreed::type_pattern(&bytes)?.map_err(|refusal| refused(&text, &bytes, refusal))?;
    target::claim(file, arguments.has(&OVER), &[(text.file(), "the text")])?.write(&pattern)?;
    let entries = count(pattern[5].into(), "entry", "entries");
    let told = format!("{}: {entries}, {}", files::name(file), count(pattern.len(), "byte", "bytes"));
    output::tell("riser type", &told);
    Ok(Status::Found)
}

/// What is refused of the text. Who gave the name of a file for it is reminded.
fn refused(text: &Text, bytes: &[u8], refusal: Refusal) -> Failure {
    let failure = Failure::refused(&text.name(), &refusal::of_text(bytes, refusal));
    match text {
        Text::Argument(word) if Path::new(OsStr::from_bytes(word)).is_file() => Failure {
            message: failure.message + "\nThere is a file of that name: --text takes it.",
            ..failure
        },
        _ => failure,
    }
}
