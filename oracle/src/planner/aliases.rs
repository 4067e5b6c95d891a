//! Names that were found to be one node: each but one of them has another name to be put in its place.

use super::setting::NAMES;

#[derive(Clone, Copy, Debug)]
struct Alias {
    stands_for: u8,
    /// The number of the line "this name is the other".
    line: u16,
}

#[derive(Clone, Debug)]
pub struct Aliases {
    of: [Option<Alias>; NAMES],
}

impl Aliases {
    pub fn none() -> Aliases {
        Aliases { of: [None; NAMES] }
    }

    /// From now on the line, "name is kept", is used to replace the name.
    pub fn add(&mut self, name: u8, kept: u8, line: u16) {
        self.of[name as usize] = Some(Alias { stands_for: kept, line });
    }

    /// The line by which the name is replaced, if it is.
    pub fn line_for(&self, name: u8) -> Option<u16> {
        self.of[name as usize].map(|alias| alias.line)
    }

    /// The name that is kept of all those that are one node with this one.
    pub fn kept(&self, name: u8) -> u8 {
        let mut kept = name;
        while let Some(alias) = self.of[kept as usize] {
            kept = alias.stands_for;
        }
        kept
    }
}
