//! How a tree is laid out: what each segment has behind it, which ones begin a part of their own, and which
//! are unfolded.

use super::tree::{End, Tree};
use std::collections::VecDeque;

/// A browser tears apart what is nested more than some 500 elements deep, so forks nested more deeply than
/// this stand in parts of their own.
const DEEPEST: usize = 12;
/// At most so many steps and forks are unfolded at first, but for the first segment's.
const UNFOLDED_STEPS: usize = 100;
const UNFOLDED_FORKS: usize = 8;

/// What is said of a segment with all that is behind it.
#[derive(Clone, Copy, Default)]
pub struct Outlined {
    pub steps: usize,
    pub clashes: usize,
    pub forks: usize,
    /// The number of the part that begins here, from 2; the first one begins with the first segment.
    pub part: Option<usize>,
    pub open: bool,
    /// How many forks its part has before it.
    depth: usize,
}

/// By segment.
pub fn outline(tree: &Tree) -> Vec<Outlined> {
    let mut outline = totals(tree);
    divide(tree, &mut outline);
    unfold_first(tree, &mut outline);
    unfold_fault(tree, &mut outline);
    outline
}

/// The sides of a fork stand behind the segment that it ends, so the last segment comes first.
fn totals(tree: &Tree) -> Vec<Outlined> {
    let mut outline = vec![Outlined::default(); tree.segments.len()];
    for (number, segment) in tree.segments.iter().enumerate().rev() {
        let sides = match segment.end {
            End::Fork(sides) => sides.map(|side| outline[side]).to_vec(),
            _ => Vec::new(),
        };
        let sum = |of: fn(&Outlined) -> usize| sides.iter().map(of).sum::<usize>();
        outline[number] = Outlined {
            steps: segment.steps.len() + sum(|side| side.steps),
            clashes: usize::from(segment.end == End::Clash) + sum(|side| side.clashes),
            forks: sides.len() / 2 + sum(|side| side.forks),
            ..Outlined::default()
        };
    }
    outline
}

/// Gives the sides that are too deep, and fork again, to parts of their own, numbered in the order of their
/// steps.
fn divide(tree: &Tree, outline: &mut [Outlined]) {
    let mut begins = Vec::new();
    for (number, segment) in tree.segments.iter().enumerate() {
        let Some(side) = segment.side else { continue };
        outline[number].depth = outline[side.parent].depth + 1;
        if outline[number].depth >= DEEPEST && outline[number].forks > 0 {
            outline[number].depth = 0;
            begins.push(number);
        }
    }
    begins.sort_by_key(|&number| tree.segments[number].steps.start);
    begins.iter().zip(2..).for_each(|(&number, part)| outline[number].part = Some(part));
}

/// Unfolds what is nearest to the root.
fn unfold_first(tree: &Tree, outline: &mut [Outlined]) {
    let (mut steps, mut forks, mut next) = (0, 0, VecDeque::from([0]));
    while let Some(number) = next.pop_front() {
        let segment = &tree.segments[number];
        steps += segment.steps.len();
        if let End::Fork(sides) = segment.end {
            forks += 1;
            next.extend(sides);
        }
        if number > 0 && (steps > UNFOLDED_STEPS || forks > UNFOLDED_FORKS) {
            break;
        }
        outline[number].open = true;
    }
}

/// Unfolds what the refused step or the open end stands in, up to where its part begins.
fn unfold_fault(tree: &Tree, outline: &mut [Outlined]) {
    let mut around = tree.fault();
    while let Some(number) = around {
        outline[number].open = true;
        let side = tree.segments[number].side.filter(|_| outline[number].part.is_none());
        around = side.map(|side| side.parent);
    }
}
