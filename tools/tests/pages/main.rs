//! The pages of `riser explain --html`: well-formed, alone, and with everything in them.

#[path = "../../../oracle/tests/common/mod.rs"]
mod files;

mod blocks;
mod parsed;
mod refusals;
mod samples;
mod tableaux;

use parsed::Page;
use tools::agreed::explained;
use tools::page::judgement;

/// What the files of a page are called.
fn names() -> [String; 2] {
    ["pattern.bin", "proposal.bin"].map(String::from)
}

/// The page of a pattern and a proposal.
fn page(pattern: &[u8], proposal: &[u8]) -> Page {
    let conclusion = explained(pattern, proposal).expect("both implementations agree").conclusion;
    Page::read(&judgement(&names(), pattern, proposal, &conclusion))
}

/// A text in one line, to be found in that of a page.
fn flat(text: &str) -> String {
    text.split_whitespace().collect::<Vec<_>>().join(" ")
}
