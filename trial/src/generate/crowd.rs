//! Patterns that say many almost equal things, so that steps on their branches are easily mistaken.

use oracle::pattern::{Path, Pattern};
use oracle::planner::builder::{Builder, END};
use oracle::random::Random;

/// A conjunction of short statements, as they are or denied, about few names and axes and mostly one
/// channel.
pub fn crowded(random: &mut Random) -> Pattern {
    let mut crowd = Crowd { channel: random.below(4) as u8, random, builder: Builder::default() };
    let statements: Vec<usize> = (0..crowd.random.between(4, 12)).map(|_| crowd.statement()).collect();
    let root = crowd.builder.all(&statements);
    crowd.builder.finish(root).expect("twelve statements take fewer than 255 entries")
}

/// A crowded pattern in the making.
struct Crowd<'r> {
    random: &'r mut Random,
    builder: Builder,
    channel: u8,
}

impl Crowd<'_> {
    fn statement(&mut self) -> usize {
        let statement = match self.random.below(9) {
            0 | 1 => self.builder.name(self.random.below(3) as u8),
            2 => {
                let property = self.builder.property(0);
                self.builder.after(self.random.below(2) as u8, property)
            }
            3 => {
                let (one, other) = (self.comparison(), self.comparison());
                self.builder.either(one, other)
            }
            _ => self.comparison(),
        };
        if self.random.once_in(3) { self.builder.not(statement) } else { statement }
    }

    /// Same or differ, or both over the same paths.
    fn comparison(&mut self) -> usize {
        let channel = if self.random.once_in(8) { self.channel ^ 1 } else { self.channel };
        let (alpha, beta) = (self.short_path(), self.short_path());
        match self.random.below(8) {
            0..=2 => self.builder.same(channel, alpha, beta),
            3..=5 => self.builder.differ(channel, alpha, beta),
            _ => {
                let same = self.builder.same(channel, alpha, beta);
                let differ = self.builder.differ(channel, alpha, beta);
                self.builder.both(same, differ)
            }
        }
    }

    fn short_path(&mut self) -> Path {
        let rest = match self.random.below(8) {
            0 | 1 => self.builder.step(self.random.below(2) as u8, END),
            2 => {
                let property = self.builder.property(0);
                self.builder.test(property, END)
            }
            _ => END,
        };
        let jumps = !self.random.once_in(4);
        if jumps { self.builder.jump(self.random.below(3) as u8, rest) } else { rest }
    }
}
