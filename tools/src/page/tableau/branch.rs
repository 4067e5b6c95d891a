//! The lines and steps of a branch as pieces of a page, up to its end.

use super::tree::{End, Refused, Tree, Used};
use crate::page::html::{Html, element, text, words};
use oracle::explain::formula::Formula;
use oracle::explain::{Conclusion, rule, wording};
use oracle::tableau::Tableau;
use oracle::tableau::rules::{says_clash, says_fork, uses_q};

/// What the pieces are made of.
#[derive(Clone, Copy)]
pub struct Branches<'a> {
    pub formula: &'a Formula<'a>,
    pub tableau: &'a Tableau,
    pub tree: &'a Tree,
    pub conclusion: &'a Conclusion,
}

impl Branches<'_> {
    /// A line, which its place in the tree's list makes its own.
    pub fn line(&self, line: usize) -> Html {
        words("span", &[("class", "line"), ("id", &line_id(line))], self.line_text(line))
    }

    fn line_text(&self, line: usize) -> String {
        let numbered = &self.tree.lines[line];
        format!("[{}] {}", numbered.number, wording::line(self.formula, &numbered.line))
    }

    /// What stands in a segment: its steps, and what is at its end unless that is a fork.
    pub fn segment(&self, segment: usize) -> Vec<Html> {
        let segment = &self.tree.segments[segment];
        let first = segment.side.is_none().then(|| self.line(segment.first_line));
        let steps = segment.steps.clone().map(|number| self.taken(number));
        let fault = (segment.end == End::Open).then(|| self.fault());
        first.into_iter().chain(steps).chain(fault).collect()
    }

    /// A step with its new lines, but those of a fork stand at its sides.
    fn taken(&self, number: usize) -> Html {
        let (taken, rule) = (&self.tree.steps[number], self.tableau.steps[number].rule);
        let mut below = Vec::new();
        if says_clash(rule) {
            let lines: Vec<String> =
                taken.used.into_iter().flatten().map(|line| self.line_text(line)).collect();
            let against = text(format!(" {}", lines.join(" against ")));
            below.push(element("span", &[("class", "clash")], [words("strong", &[], "CLASH:"), against]));
        } else if !says_fork(rule) {
            below.extend(taken.lines.clone().map(|line| self.line(line)));
        }
        self.step(number, "step", taken.used, [self.named(number)].into_iter().chain(below))
    }

    /// The place of the refusal: the refused step, or the end of a branch that is still open.
    pub fn fault(&self) -> Html {
        let sentence = words("pre", &[], self.conclusion.words());
        let Some(refused) = &self.tree.refused else {
            let open = words("strong", &[], "here: still open, the steps are at an end");
            return element("div", &[("class", "fault"), ("id", "open")], [open, sentence]);
        };
        let number = self.tree.steps.len();
        let here = words("strong", &[], "refused here: ");
        let missing =
            self.missing(number, refused).map(|missing| words("div", &[("class", "missing")], missing));
        let content = [here, self.named(number)].into_iter().chain(missing).chain([sentence]);
        self.step(number, "step fault", refused.used, content)
    }

    /// The lines that the refused step uses and its branch doesn't have.
    fn missing(&self, number: usize, refused: &Refused) -> impl Iterator<Item = String> {
        let step = &self.tableau.steps[number];
        let q = uses_q(step.rule).then_some(step.q);
        let lines = [("P", Some(step.p)), ("Q", q)].into_iter().zip(refused.used);
        let missing = lines.filter(|_| !refused.behind).filter(|(_, used)| used.is_none());
        missing.filter_map(|((field, line), _)| Some(format!("{field}: line {} isn't on this branch", line?)))
    }

    fn named(&self, number: usize) -> Html {
        let step = rule::step(&self.tableau.steps[number]);
        words("span", &[("class", "named")], format!("step {number}: {step}"))
    }

    fn step(&self, number: usize, class: &str, used: Used, content: impl IntoIterator<Item = Html>) -> Html {
        let [p, q] = used.map(|line| line.map(line_id));
        let (id, rule) = (step_id(number), self.tableau.steps[number].rule.to_string());
        let mut attributes = vec![("class", class), ("id", &id), ("data-rule", &rule)];
        attributes.extend(p.as_ref().map(|p| ("data-p", p.as_str())));
        attributes.extend(q.as_ref().map(|q| ("data-q", q.as_str())));
        element("div", &attributes, content)
    }
}

/// What a line is called in links.
pub fn line_id(line: usize) -> String {
    format!("l{line}")
}

/// What a step is called in links.
pub fn step_id(step: usize) -> String {
    format!("s{step}")
}
