//! Data values on a branch: which names have the same value on a channel, and by which lines.

use super::setting::NAMES;
use super::shape::{ValueLine, value_line};
use crate::pattern::{Comparison, MAX_CHANNEL};
use crate::tableau::line::Line;

/// How many channels there are.
pub const CHANNELS: usize = MAX_CHANNEL as usize + 1;

/// Two names with the same value, and the number of the line that says so: "same" on the channel, or "is",
/// which says it of every channel.
#[derive(Clone, Copy, Debug)]
pub struct Link {
    channel: Option<u8>,
    pub from: u8,
    pub to: u8,
    pub line: u16,
}

/// A line that says that two values differ.
#[derive(Clone, Copy, Debug)]
pub struct Difference {
    pub channel: u8,
    pub left: u8,
    pub right: u8,
    pub line: u16,
}

#[derive(Clone, Debug)]
pub struct Values {
    links: Vec<Link>,
    differences: Vec<Difference>,
    /// For each channel and name a number that names with the same value share.
    classes: [[u8; NAMES]; CHANNELS],
}

impl Values {
    pub fn unknown() -> Values {
        let each_its_own = std::array::from_fn(|name| name as u8);
        Values { links: Vec::new(), differences: Vec::new(), classes: [each_its_own; CHANNELS] }
    }

    /// Notes what the line says about values, if anything.
    pub fn note(&mut self, said: Line, line: u16) {
        if let Line::Is { holds: true, first: from, second: to } = said {
            self.link(Link { channel: None, from, to, line });
        }
        match value_line(said) {
            Some(ValueLine { comparison: Comparison::Same, channel, left: from, right: to }) => {
                self.link(Link { channel: Some(channel), from, to, line });
            }
            Some(ValueLine { comparison: Comparison::Differ, channel, left, right }) => {
                self.differences.push(Difference { channel, left, right, line });
            }
            None => {}
        }
    }

    fn link(&mut self, link: Link) {
        self.links.push(link);
        for channel in (0..=MAX_CHANNEL).filter(|&channel| link.is_on(channel)) {
            let classes = &mut self.classes[channel as usize];
            let (from, to) = (classes[link.from as usize], classes[link.to as usize]);
            classes.iter_mut().filter(|class| **class == from).for_each(|class| *class = to);
        }
    }

    /// A number that the name shares with those that have its value on the channel.
    pub fn class(&self, channel: u8, name: u8) -> u8 {
        self.classes[channel as usize][name as usize]
    }

    /// A difference between two names that have the same value.
    pub fn contradiction(&self) -> Option<Difference> {
        let is_one = |d: &&Difference| self.class(d.channel, d.left) == self.class(d.channel, d.right);
        self.differences.iter().find(is_one).copied()
    }

    /// The shortest chain of links between two names with the same value, each the way it is gone.
    pub fn chain(&self, channel: u8, from: u8, to: u8) -> Vec<Link> {
        let arrivals = self.arrivals(channel, from);
        let mut chain = Vec::new();
        let mut at = to;
        while at != from {
            let link = arrivals[at as usize].expect("names of one class are linked");
            chain.push(link);
            at = link.from;
        }
        chain.reverse();
        chain
    }

    /// For each name, the link by which a search in widening circles first arrives there.
    fn arrivals(&self, channel: u8, from: u8) -> [Option<Link>; NAMES] {
        let mut arrivals = [None; NAMES];
        let mut reached = vec![from];
        let mut next = 0;
        while next < reached.len() {
            let at = reached[next];
            next += 1;
            for link in self.links.iter().filter_map(|link| link.leaving(channel, at)) {
                if link.to != from && arrivals[link.to as usize].is_none() {
                    arrivals[link.to as usize] = Some(link);
                    reached.push(link.to);
                }
            }
        }
        arrivals
    }
}

impl Link {
    fn is_on(&self, channel: u8) -> bool {
        self.channel.is_none_or(|own| own == channel)
    }

    /// The link as gone from the name, forwards or backwards, if it leaves there.
    fn leaving(&self, channel: u8, at: u8) -> Option<Link> {
        if !self.is_on(channel) {
            None
        } else if self.from == at {
            Some(*self)
        } else if self.to == at {
            Some(Link { from: self.to, to: self.from, ..*self })
        } else {
            None
        }
    }
}
