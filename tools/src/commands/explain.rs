//! `riser explain`: why a judgement comes out as it does, in words or as a page.

use super::judge;
use crate::agreed;
use crate::arguments::{Arguments, OVER, Opt, TEXT, TEXT_FILE, Takes};
use crate::command::{Command, Failure, Status};
use crate::files::source::{Given, Source};
use crate::files::{self, target};
use crate::output;
use crate::page;
use oracle::explain::wording::count;
use std::path::Path;

const HTML: Opt = Opt {
    name: "--html",
    takes: Takes::Output,
    help: "write it as a page with a picture instead, for any\n\
           browser; the page has all it needs in itself",
};

pub const EXPLAIN: Command = Command {
    name: "explain",
    summary: "why it is found so, node by node or step by step; --html draws it",
    usage: "riser explain [--html FILE [--over]]\n         (PATTERN | -e TEXT | --text FILE) PROPOSAL",
    about: "\
Prints the pattern as a formula, the proposal, a tableau or a block (a model),
and why the finding of the two comes out as it does. The exit status is that of
the finding.
",
    options: &[TEXT, TEXT_FILE, HTML, OVER],
    examples: "\
Examples: in words, and as a page.

  riser explain -e '(p0&!p0)' tableau.bin
  riser explain --html page.html pattern.bin block.bin
",
    run,
};

fn run(arguments: &Arguments) -> Result<Status, Failure> {
    let (source, [file]) = arguments.pattern_and(["proposal"])?;
    let over = arguments.has(&OVER);
    match arguments.path(&HTML) {
        None if over => Err(Failure::usage("--over goes with --html")),
        None => in_words(&source, file),
        Some(page) => as_page(page, over, &source, file),
    }
}

fn in_words(source: &Source, file: &Path) -> Result<Status, Failure> {
    let (text, finding) = match source.read()? {
        Given::Pattern(pattern) => {
            let explained = agreed::explained(&pattern, &files::read(file)?)?;
            (explained.to_string(), explained.conclusion.finding)
        }
        Given::Refused { conclusion, .. } => (conclusion.to_string(), conclusion.finding),
    };
    output::print(text)?;
    Ok(Status::of(finding))
}

/// Writes the page, and prints the finding and what was written.
fn as_page(page: &Path, over: bool, source: &Source, file: &Path) -> Result<Status, Failure> {
    let names = [source.title(), files::name(file)];
    let (html, conclusion) = match source.read()? {
        Given::Pattern(pattern) => {
            let proposal = files::read(file)?;
            let conclusion = agreed::explained(&pattern, &proposal)?.conclusion;
            (page::judgement(&names, &pattern, &proposal, &conclusion), conclusion)
        }
        Given::Refused { text, refusal, conclusion } => {
            (page::refused_text(&names, &text, refusal, &conclusion), conclusion)
        }
    };
    // Of a refused text the proposal isn't looked for, and need not be there.
    let read = [(source.file(), "the pattern"), (file.exists().then_some(file), "the proposal")];
    target::claim(page, over, &read)?.write(html.as_bytes())?;
    let written = format!("{}: the page, {}", files::name(page), count(html.len(), "byte", "bytes"));
    output::tell("riser explain", &format!("{}{written}", judge::in_lines(&conclusion)));
    Ok(Status::of(conclusion.finding))
}
