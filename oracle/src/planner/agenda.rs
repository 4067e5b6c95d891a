//! Steps that a branch could take, by urgency: names first, forks last.

use crate::random::Random;
use crate::tableau::rules::{Step, says_fork};

#[derive(Clone, Debug, Default)]
pub struct Agenda {
    /// Rules 17 and 19, by which names that are one node become one name.
    renaming: Vec<Step>,
    plain: Vec<Step>,
    /// Rules 5 and 14, which bring a fresh name.
    naming: Vec<Step>,
    pub forks: Vec<Step>,
}

impl Agenda {
    pub fn add(&mut self, step: Step) {
        let list = match step.rule {
            17 | 19 => &mut self.renaming,
            5 | 14 => &mut self.naming,
            rule if says_fork(rule) => &mut self.forks,
            _ => &mut self.plain,
        };
        list.push(step);
    }

    /// A step of the most urgent sort, forks excepted.
    pub fn take(&mut self, random: &mut Random) -> Option<Step> {
        let lists = [&mut self.renaming, &mut self.plain, &mut self.naming];
        let list = lists.into_iter().find(|list| !list.is_empty())?;
        Some(list.swap_remove(random.below(list.len())))
    }
}
