//! Patterns that can't occur: something, and not what follows from it.

use super::composition::either;
use oracle::pattern::{Comparison, Entry, Path, Pattern};
use oracle::planner::builder::{Builder, END};
use oracle::random::Random;

/// What is made of an entry: something that follows from it, or something that it follows from; of a
/// path: one that leads to more, or one that leads to less.
#[derive(Clone, Copy, PartialEq, Eq)]
enum Way {
    Weaker,
    Stronger,
}

/// The root of the pattern and not something that follows from it; nothing if that takes too many
/// entries.
pub fn contradiction(random: &mut Random, pattern: &Pattern) -> Option<Pattern> {
    let mut builder = Builder::default();
    let root = builder.graft(pattern);
    let mut maker = Maker { random, pattern, builder };
    let follows = maker.node(pattern.entries.len() - 1, Way::Weaker);
    let not = maker.builder.not(follows);
    let both = maker.builder.both(root, not);
    maker.builder.finish(both)
}

/// Writes variants of the pattern's entries to the builder.
struct Maker<'a> {
    random: &'a mut Random,
    pattern: &'a Pattern,
    builder: Builder,
}

impl Maker<'_> {
    /// A variant of a node entry; what follows from it is now and then that or something else.
    fn node(&mut self, number: usize, way: Way) -> usize {
        let variant = self.variant(number, way);
        if way == Way::Stronger || !self.random.once_in(8) {
            return variant;
        }
        let else_ = self.builder.property(self.random.below(32) as u8);
        self.builder.either(variant, else_)
    }

    fn variant(&mut self, number: usize, way: Way) -> usize {
        match self.pattern.entries[number] {
            Entry::Property(property) => self.builder.property(property),
            Entry::Name(name) => self.builder.name(name),
            Entry::Not(phi) => {
                let phi = self.node(phi, way.other());
                self.builder.not(phi)
            }
            Entry::Both(phi, psi) => {
                let (phi, psi) = (self.node(phi, way), self.node(psi, way));
                match self.random.below(4) {
                    0 if way == Way::Weaker => phi,
                    1 if way == Way::Weaker => psi,
                    2 => self.builder.both(psi, phi),
                    _ => self.builder.both(phi, psi),
                }
            }
            Entry::Either(phi, psi) => {
                let (phi, psi) = (self.node(phi, way), self.node(psi, way));
                match self.random.below(4) {
                    0 if way == Way::Stronger => phi,
                    1 if way == Way::Stronger => psi,
                    2 => self.builder.either(psi, phi),
                    _ => either(self.random, &mut self.builder, phi, psi),
                }
            }
            Entry::After(axis, phi) => {
                let phi = self.node(phi, way);
                self.builder.after(axis, phi)
            }
            Entry::Compare(comparison, channel, alpha, beta) => {
                self.comparison(comparison, channel, [alpha, beta], way)
            }
            _ => unreachable!("a node reference is to a node entry"),
        }
    }

    /// The comparison with its sides exchanged or not.
    fn comparison(&mut self, comparison: Comparison, channel: u8, sides: [Path; 2], way: Way) -> usize {
        let mut sides = sides.map(|side| self.path(side, way));
        if self.random.once_in(2) {
            sides.reverse();
        }
        let [alpha, beta] = sides;
        match comparison {
            Comparison::Same => self.builder.same(channel, alpha, beta),
            Comparison::Differ => self.builder.differ(channel, alpha, beta),
        }
    }

    fn path(&mut self, path: Path, way: Way) -> Path {
        let Some(number) = path else { return END };
        let variant = match self.pattern.entries[number] {
            Entry::Step(axis, alpha) => {
                let alpha = self.path(alpha, way);
                self.builder.step(axis, alpha)
            }
            Entry::Jump(name, alpha) => {
                let alpha = self.path(alpha, way);
                self.builder.jump(name, alpha)
            }
            Entry::Test(phi, alpha) => {
                let (phi, alpha) = (self.node(phi, way), self.path(alpha, way));
                let without = way == Way::Weaker && self.random.once_in(2);
                if without { alpha } else { self.builder.test(phi, alpha) }
            }
            Entry::Fork(alpha, beta) => {
                let (alpha, beta) = (self.path(alpha, way), self.path(beta, way));
                let one = way == Way::Stronger && self.random.once_in(3);
                if one { alpha } else { self.builder.fork(beta, alpha) }
            }
            _ => unreachable!("a path reference is to a path entry"),
        };
        let more = way == Way::Weaker && self.random.once_in(4);
        if more { self.builder.fork(END, variant) } else { variant }
    }
}

impl Way {
    fn other(self) -> Way {
        match self {
            Way::Weaker => Way::Stronger,
            Way::Stronger => Way::Weaker,
        }
    }
}
