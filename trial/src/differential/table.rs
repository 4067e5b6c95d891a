//! The table that a run prints of its tally.

use super::grids::GRIDS;
use super::missing::{refusals, words};
use super::names::EACH_NAME;
use super::situations::{SITUATIONS, Situations};
use super::tally::Tally;
use crate::generate::input::{Kind, Operation};
use std::fmt;

impl fmt::Display for Tally {
    fn fmt(&self, f: &mut fmt::Formatter<'_>) -> fmt::Result {
        writeln!(f, "{:>12}  inputs", self.inputs)?;
        for &kind in Kind::ALL {
            writeln!(f, "{:>12}    {}", self.kinds[kind as usize], kind.words())?;
        }
        writeln!(f, "findings")?;
        writeln!(f, "{:>12}    read", self.read)?;
        writeln!(f, "{:>12}    met", self.met)?;
        writeln!(f, "{:>12}    unmet", self.unmet)?;
        writeln!(f, "{:>12}    closed, {} distinct tableaux", self.closed, self.distinct.len())?;
        writeln!(f, "{:>12}    written", self.written)?;
        writeln!(f, "{:>12}    area, {} different lengths", self.area, self.areas.len())?;
        for operation in Operation::ALL.into_iter().filter(|&operation| operation != Operation::Area) {
            self.write_refusals(f, operation)?;
        }
        writeln!(f, "closed tableaux that use a rule, and steps with it refused 20, 21, 22")?;
        for (number, rule) in self.rules.iter().enumerate().skip(1) {
            let [on, fit, fresh] = rule.refused;
            writeln!(f, "{:>12}    {number:>2} {on:>12} {fit:>12} {fresh:>12}", rule.closed)?;
        }
        for situations in SITUATIONS {
            self.write_shown(f, situations)?;
        }
        self.write_grids(f)?;
        self.write_each_name(f)?;
        self.write_short(f)?;
        writeln!(f, "demand 3")?;
        writeln!(f, "{:>12}    models of a pattern with a closed tableau: unmet", self.unmet_as_closed)?;
        writeln!(
            f,
            "{:>12}    tableaux of a pattern with a model that meets it: not closed",
            self.open_as_met
        )
    }
}

impl Tally {
    fn write_refusals(&self, f: &mut fmt::Formatter<'_>, operation: Operation) -> fmt::Result {
        writeln!(f, "refusals of {}, with the largest place", words(operation))?;
        for number in refusals(operation) {
            let refused = self.refused(operation, number);
            writeln!(f, "{:>12}    {number:>2} {:>12}", refused.times, refused.deepest)?;
        }
        Ok(())
    }

    fn write_short(&self, f: &mut fmt::Formatter<'_>) -> fmt::Result {
        writeln!(f, "files of 0 to 10 bytes")?;
        for operation in Operation::ALL {
            writeln!(
                f,
                "{:>12}    for {}",
                self.short[operation as usize].iter().sum::<u64>(),
                words(operation)
            )?;
        }
        Ok(())
    }

    fn write_grids(&self, f: &mut fmt::Formatter<'_>) -> fmt::Result {
        for (grid, counts) in GRIDS.iter().zip(&self.grids) {
            writeln!(f, "{}: {}", grid.heading, grid.columns.join(", "))?;
            for (row, words) in grid.rows.iter().enumerate() {
                let cells = 0..grid.columns.len();
                let counts = cells.map(|column| counts.get(&(row, column)).copied().unwrap_or(0));
                let counts: String = counts.map(|times| format!("{times:>9}")).collect();
                writeln!(f, "{counts}    {words}")?;
            }
        }
        Ok(())
    }

    fn write_each_name(&self, f: &mut fmt::Formatter<'_>) -> fmt::Result {
        writeln!(f, "how many of the 128 names were so")?;
        for (names, (what, _)) in self.names.iter().zip(EACH_NAME) {
            writeln!(f, "{:>12}    {what}", names.len())?;
        }
        Ok(())
    }

    fn write_shown(&self, f: &mut fmt::Formatter<'_>, situations: Situations) -> fmt::Result {
        writeln!(f, "{}", situations.heading)?;
        for (words, _) in situations.shown {
            writeln!(f, "{:>12}    {words}", self.showing(situations.sort, words))?;
        }
        Ok(())
    }
}
