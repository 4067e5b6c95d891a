//! A branch while it is searched: its lines, what they make known, and the steps it could take next.

use std::collections::HashMap;
use std::collections::hash_map::Entry::Vacant;

use super::agenda::Agenda;
use super::aliases::Aliases;
use super::proof::Move;
use super::setting::Setting;
use super::shape::{exchanged, with_first_name, without_nots};
use super::values::{CHANNELS, Values};
use crate::random::Random;
use crate::tableau::line::Line;
use crate::tableau::rules::{self, Conclusion, Step};
use crate::tableau::walk::MAX_LINES;

#[derive(Clone)]
pub struct Branch<'a> {
    pub setting: &'a Setting<'a>,
    pub lines: Vec<Line>,
    /// Where each line stands first.
    known: HashMap<Line, u16>,
    /// How many of the free names are taken.
    taken: usize,
    pub aliases: Aliases,
    pub values: Values,
    pub agenda: Agenda,
    /// How many lines were looked at for a clash.
    pub checked: usize,
    /// The steps since the branch began or its last fork.
    pub moves: Vec<Move>,
}

/// A branch can't go on: its lines or the names are used up.
#[derive(Debug)]
pub struct Full;

impl<'a> Branch<'a> {
    /// Line 0: "start name has the root". `None` if the pattern leaves no name to start with.
    pub fn begin(setting: &'a Setting<'a>) -> Option<Branch<'a>> {
        let mut branch = Branch {
            setting,
            lines: Vec::new(),
            known: HashMap::new(),
            taken: 1,
            aliases: Aliases::none(),
            values: Values::unknown(),
            agenda: Agenda::default(),
            checked: 0,
            moves: Vec::new(),
        };
        let root = setting.pattern.entries.len() - 1;
        branch.push(Line::Has { holds: true, name: *setting.free.first()?, entry: root });
        Some(branch)
    }

    /// One side of a fork: these lines and one more.
    pub fn side(&self, line: Line) -> Branch<'a> {
        let mut side = Branch { moves: Vec::new(), ..self.clone() };
        side.push(line);
        side
    }

    /// The number of the line, if the branch has it.
    pub fn number_of(&self, line: Line) -> Option<u16> {
        self.known.get(&line).copied()
    }

    /// Whether the branch has the line, or the same comparison with its sides exchanged.
    pub fn says(&self, line: Line) -> bool {
        self.known.contains_key(&line) || exchanged(line).is_some_and(|line| self.known.contains_key(&line))
    }

    /// Whether the branch says the opposite of the line, or of what rule 1 makes of it.
    pub fn denies(&self, line: Line) -> bool {
        let is_denied = |line: Line| line.denied().is_some_and(|denied| self.says(denied));
        is_denied(line) || is_denied(without_nots(self.setting.pattern, line))
    }

    /// What the step concludes, if it fits its rule.
    pub fn conclusion(&self, step: Step) -> Option<Conclusion> {
        rules::apply(self.setting.pattern, &self.lines, &step).ok()
    }

    /// What a step from the agenda concludes.
    pub fn planned(&self, step: Step) -> Conclusion {
        self.conclusion(step).expect("a planned step fits its rule")
    }

    /// Takes a step from the agenda that isn't a fork, unless it would tell nothing new.
    pub fn advance(&mut self, mut step: Step) -> Result<(), Full> {
        if self.is_outdated(step) {
            return Ok(());
        }
        if matches!(step.rule, 5 | 14) {
            step.argument = *self.setting.free.get(self.taken).ok_or(Full)?;
        }
        let conclusion = self.planned(step);
        if self.is_needless(step.rule, conclusion) {
            return Ok(());
        }
        self.take(step, conclusion);
        if self.lines.len() > MAX_LINES { Err(Full) } else { Ok(()) }
    }

    /// The line that a step of one line leads to: its number, the step being taken if it isn't there yet.
    pub fn reach(&mut self, step: Step) -> u16 {
        let Some(Conclusion::One(line)) = self.conclusion(step) else { panic!("{step:?} adds no line") };
        self.number_of(line).unwrap_or_else(|| {
            self.take(step, Conclusion::One(line));
            self.lines.len() as u16 - 1
        })
    }

    /// Tries a few steps that nobody asked for, by the rules that turn lines round or put names together.
    pub fn wander(&mut self, random: &mut Random) {
        let lines = self.lines.len();
        let limits_of_q_and_argument =
            [(8, 1, 1), (17, 1, 1), (18, 1, CHANNELS), (19, lines, 2), (20, lines, 1)];
        for (rule, q, argument) in limits_of_q_and_argument {
            let p = random.below(lines) as u16;
            let (q, argument) = (random.below(q) as u16, random.below(argument) as u8);
            let step = Step { rule, p, q, argument };
            if let Some(conclusion) = self.conclusion(step) {
                self.take(step, conclusion);
            }
        }
    }

    /// Whether the branch says already what the step concludes: of a fork one side, of a fresh name some name
    /// that the axis leads to.
    pub fn is_needless(&self, rule: u8, conclusion: Conclusion) -> bool {
        match conclusion {
            Conclusion::One(line) if rule == 8 => self.number_of(line).is_some(),
            Conclusion::One(line) => self.says(line),
            Conclusion::Two(Line::Edge { axis, from, .. }, there) => self
                .lines
                .iter()
                .filter_map(|line| line.led_to(axis, from))
                .any(|to| self.says(with_first_name(there, to))),
            Conclusion::Two(first, second) => self.says(first) && self.says(second),
            Conclusion::Fork(left, right) => self.says(left) || self.says(right),
            Conclusion::Clash => false,
        }
    }

    /// Takes the step: its lines are new on the branch.
    fn take(&mut self, step: Step, conclusion: Conclusion) {
        let at = self.lines.len() as u16;
        match conclusion {
            Conclusion::One(line) => self.push(line),
            Conclusion::Two(first, second) => {
                self.push(first);
                self.push(second);
            }
            Conclusion::Fork(..) | Conclusion::Clash => panic!("{step:?} doesn't go on"),
        }
        if matches!(step.rule, 5 | 14) {
            self.taken += 1;
        }
        self.moves.push(Move { step, at, lines: self.lines.len() as u16 - at });
    }

    /// Adds the line, and heeds what it says if it wasn't there yet.
    fn push(&mut self, line: Line) {
        let number = self.lines.len() as u16;
        self.lines.push(line);
        if let Vacant(place) = self.known.entry(line) {
            place.insert(number);
            self.values.note(line, number);
            self.consider(number);
        }
    }
}
