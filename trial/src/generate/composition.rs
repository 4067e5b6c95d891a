//! Patterns that can't occur, put together from smaller ones: their tableaux fork and have long branches.

use oracle::pattern::Pattern;
use oracle::planner::builder::{Builder, END};
use oracle::random::Random;

/// A pattern of parts that can't occur, which can't occur either; nothing if it takes too many entries.
pub fn composition(random: &mut Random, parts: &[Pattern]) -> Option<Pattern> {
    let mut composer = Composer { random, parts, builder: Builder::default() };
    let levels = composer.random.between(1, 4);
    let root = composer.compose(levels);
    composer.builder.finish(root)
}

struct Composer<'a> {
    random: &'a mut Random,
    parts: &'a [Pattern],
    builder: Builder,
}

impl Composer<'_> {
    /// Something that can't occur, of so many levels: either of two such things; a successor, the end of
    /// a path or any node with such a thing; such a thing and whatever else.
    fn compose(&mut self, levels: usize) -> usize {
        if levels == 0 {
            let part = self.random.below(self.parts.len());
            return self.builder.graft(&self.parts[part]);
        }
        let part = self.compose(levels - 1);
        let number = self.random.below(8) as u8;
        match self.random.below(6) {
            0 | 1 => {
                let other = self.compose(levels - 1);
                either(self.random, &mut self.builder, part, other)
            }
            2 => self.builder.after(number, part),
            3 => {
                let (test, jump) = (self.builder.test(part, END), self.builder.jump(number, END));
                let path = self.builder.fork(test, test);
                self.builder.same(number % 4, path, jump)
            }
            4 => {
                let else_ = self.builder.property(number);
                self.builder.both(else_, part)
            }
            _ => {
                let test = self.builder.test(part, END);
                let path = self.builder.step(number, test);
                self.builder.differ(number % 4, END, path)
            }
        }
    }
}

/// Either of two nodes; now and then as three nots and a both, as it was written before it was a kind.
pub fn either(random: &mut Random, builder: &mut Builder, phi: usize, psi: usize) -> usize {
    if random.once_in(3) { builder.not_neither(phi, psi) } else { builder.either(phi, psi) }
}
