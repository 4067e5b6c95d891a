//! Random texts of the grammar, by how many entries they would have if none were shared.

use crate::generate::patterns::Vocabulary;
use oracle::random::Random;

/// A text of so many items: letters, signs before a node, brackets, and parts of rows.
pub fn text(random: &mut Random, items: usize) -> Vec<u8> {
    let vocabulary = Vocabulary::random(random);
    let mut writer = Writer { random, vocabulary, text: Vec::new() };
    writer.node(items);
    writer.text
}

struct Writer<'r> {
    random: &'r mut Random,
    vocabulary: Vocabulary,
    text: Vec<u8>,
}

impl Writer<'_> {
    /// A node of so many items, of which there is at least one.
    fn node(&mut self, items: usize) {
        match self.random.below(if items > 1 { 12 } else { 4 }) {
            0 if items == 1 => self.number("p", self.vocabulary.properties),
            1 if items == 1 => self.number("n", self.vocabulary.names),
            0..4 => self.comparison(items - 1),
            4 | 5 => self.before("!", items - 1),
            6 | 7 => {
                self.number("<", self.vocabulary.axes);
                self.before(">", items - 1);
            }
            _ if items == 2 => self.before("!", 1),
            _ => self.pair(items - 1),
        }
    }

    fn before(&mut self, sign: &str, items: usize) {
        self.put(sign);
        self.node(items);
    }

    /// Two nodes of so many items together, at least two.
    fn pair(&mut self, items: usize) {
        let first = self.random.between(1, items - 1);
        self.before("(", first);
        let sign = self.random.pick(&["&", "|"]);
        self.before(sign, items - first);
        self.put(")");
    }

    fn comparison(&mut self, items: usize) {
        let first = self.random.between(0, items);
        self.put("[");
        self.row(first);
        let sign = self.random.pick(&["=", "#"]);
        self.number(sign, self.vocabulary.channels);
        self.row(items - first);
        self.put("]");
    }

    /// A row of so many items.
    fn row(&mut self, mut items: usize) {
        while items > 0 {
            let of_part = self.random.between(1, items);
            match self.random.below(4) {
                0 if of_part > 1 => self.before("?", of_part - 1),
                1 => {
                    let first = self.random.between(0, of_part - 1);
                    self.put("{");
                    self.row(first);
                    self.put("|");
                    self.row(of_part - 1 - first);
                    self.put("}");
                }
                2 => {
                    self.number("@", self.vocabulary.names);
                    items -= 1;
                    continue;
                }
                _ => {
                    self.number("/", self.vocabulary.axes);
                    items -= 1;
                    continue;
                }
            }
            items -= of_part;
        }
    }

    /// The sign, and behind it a number below the limit, now and then the last.
    fn number(&mut self, sign: &str, limit: usize) {
        let number = if self.random.once_in(8) { limit - 1 } else { self.random.below(limit) };
        self.put(sign);
        self.put(&number.to_string());
    }

    fn put(&mut self, text: &str) {
        self.text.extend(text.as_bytes());
    }
}
