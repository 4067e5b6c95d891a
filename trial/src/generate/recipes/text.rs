//! Texts to be read into pattern files, and those that are to be judged then.

use super::model;
use crate::generate::corpus::Corpus;
use crate::generate::input::{Input, Kind, Operation};
use crate::generate::texts;
use oracle::random::Random;
use oracle::typed::type_pattern;

/// A text to be typed: of the grammar, outside it, with a number at or beyond its limit, or at a limit of its own.
pub fn to_be_typed(random: &mut Random, input: &mut Input) {
    input.operation = Operation::Typing;
    input.pattern = match input.kind {
        Kind::SpoiltText if random.once_in(3) => texts::random(random),
        Kind::SpoiltText => texts::misplace(random),
        Kind::NumberInText => texts::with_number(random),
        Kind::TextLimit if random.once_in(2) => texts::long(random),
        Kind::TextLimit => texts::shaped(random),
        _ => texts::random(random),
    };
    let spoils = match input.kind {
        Kind::SpoiltText => random.once_in(2),
        Kind::NumberInText => random.once_in(8),
        Kind::TextLimit => random.once_in(6),
        _ => false,
    };
    if spoils {
        texts::spoil(random, &mut input.pattern);
    }
}

/// A model to be judged of a typed pattern, now and then of one that is refused; or a model at a limit.
pub fn judged(random: &mut Random, corpus: &Corpus, input: &mut Input) {
    let mut text = if random.once_in(16) { texts::with_number(random) } else { texts::random(random) };
    if random.once_in(8) {
        texts::spoil(random, &mut text);
    }
    input.pattern = type_pattern(&text, usize::MAX).unwrap_or_default();
    if random.once_in(4) {
        model::limit(random, input);
    } else {
        model::for_pattern(random, corpus, input);
    }
    input.pattern = text;
    input.operation = Operation::Typed;
}
