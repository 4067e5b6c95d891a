//! One input in full, so that a person can repeat what was done with it.

use super::compare::{Comparer, Difference};
use super::guarded::Against;
use super::implementation::Implementation;
use super::missing::words;
use crate::generate::area::Area;
use crate::generate::input::{Input, Operation};
use std::fmt::Write;

/// The input, byte for byte.
pub fn describe(input: &Input, seed: u64, number: u64) -> String {
    let mut text = format!("input {number} of seed {seed}: {}\n", input.kind.words());
    let mut line = |label: &str, words: String| {
        writeln!(text, "{label:<12}{words}").expect("a string takes any text");
    };
    line("operation", words(input.operation).to_string());
    let (pattern, proposal, area) = match input.operation {
        Operation::Ordering => (None, Some("old file"), "destination"),
        Operation::Reading | Operation::Area => (Some("pattern"), None, ""),
        Operation::Typing => (Some("text"), None, "destination"),
        Operation::Typed => (Some("text"), Some("proposal"), "area"),
        _ => (Some("pattern"), Some("proposal"), "area"),
    };
    if let Some(label) = pattern {
        line(label, in_hex(&input.pattern));
    }
    if Operation::OF_TEXTS.contains(&input.operation) {
        line("as typed", input.pattern.escape_ascii().to_string());
    }
    if let Some(label) = proposal {
        line(label, in_hex(&input.proposal));
    }
    if !area.is_empty() {
        let Area { length, fill } = input.area;
        line(area, format!("{length} bytes, byte k is 1 + ((k + {fill}) * 101 mod 251)"));
    }
    text
}

/// What each implementation finds, and the first difference.
pub fn findings(
    comparer: &mut Comparer,
    input: &Input,
    against: Against,
    implementations: &[Implementation],
) -> (String, Option<Difference>) {
    let mut text = String::new();
    for implementation in implementations {
        let found = match comparer.run(input, against, implementation) {
            Ok(finding) => finding.to_string(),
            Err(what) => format!("{what:?}"),
        };
        writeln!(text, "{:<12}{found}", implementation.name).expect("a string takes any text");
    }
    (text, comparer.compare(input, against, implementations).err())
}

fn in_hex(bytes: &[u8]) -> String {
    let mut text = format!("{} bytes ", bytes.len());
    for byte in bytes {
        write!(text, "{byte:02x}").expect("a string takes any text");
    }
    text
}
