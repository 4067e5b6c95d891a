//! Patterns that can't occur, made by hand: closing them takes every rule from 1 to 25.

mod axes;
mod eithers;
mod names;
mod paths;
mod properties;
mod values;

use super::builder::{Builder, END};
use crate::pattern::Pattern;

/// The names, axes and properties that the patterns speak of.
const X: u8 = 7;
const Y: u8 = 50;
const Z: u8 = 127;
const DOWN: u8 = 0;
const ASIDE: u8 = 5;
const RED: u8 = 0;
const BLUE: u8 = 31;
const GREEN: u8 = 16;

/// Adds the entries of a pattern and answers its root.
type Build = fn(&mut Builder) -> usize;

/// Adds the entries of "one or the other" and answers where the last stands.
type Either = fn(&mut Builder, usize, usize) -> usize;

/// The same as `Build`, with "one or the other" written so.
type BuildWith = fn(&mut Builder, Either) -> usize;

/// All of them.
pub fn patterns() -> Vec<Pattern> {
    let groups: [&[Build]; 5] = [&properties::ALL, &names::ALL, &axes::ALL, &paths::ALL, &values::ALL];
    let eithers = both_ways().into_iter().flat_map(|pattern| [pattern.with_either, pattern.with_nots]);
    groups.concat().into_iter().map(built).chain(eithers).collect()
}

/// A pattern that says "one or the other" somewhere, written in two ways.
pub struct BothWays {
    /// By kind 12.
    pub with_either: Pattern,
    /// By three nots and a both.
    pub with_nots: Pattern,
}

/// Those that say "one or the other" somewhere.
pub fn both_ways() -> Vec<BothWays> {
    let both_ways = |&build: &BuildWith| BothWays {
        with_either: built(|builder| build(builder, Builder::either)),
        with_nots: built(|builder| build(builder, Builder::not_neither)),
    };
    eithers::ALL.iter().map(both_ways).collect()
}

fn built(build: impl Fn(&mut Builder) -> usize) -> Pattern {
    let mut builder = Builder::default();
    let root = build(&mut builder);
    builder.finish(root).expect("a few entries")
}

/// The entry holds at the named node: its value is its own, if the test lets it pass.
fn at(b: &mut Builder, name: u8, phi: usize) -> usize {
    let tested = b.test(phi, END);
    let there = b.jump(name, tested);
    let named = b.jump(name, END);
    b.same(0, there, named)
}
