//! The tables of the benchmark, whose lines are made one by one as they are asked for.

use super::case::Case;
use super::growth::Series;
use super::judge::{FAST, JUDGES, PROVED};
use super::stack;
use super::timing::nanoseconds;
use std::iter::once;
use tools::progress;

/// The lines of tables. A case on which the implementations differ is an error.
pub type Lines = Box<dyn Iterator<Item = Result<String, String>>>;

/// Which of a group's cases is next.
#[derive(Clone, Copy)]
struct Counter {
    group: &'static str,
    next: usize,
    total: usize,
}

impl Counter {
    fn new(group: &'static str, total: usize) -> Counter {
        Counter { group, next: 1, total }
    }

    /// Shows at a terminal that the case is measured, until what is given is dropped.
    fn measuring(&mut self, case: &str) -> Option<progress::Line> {
        let Counter { group, next, total } = *self;
        self.next += 1;
        progress::show(&format!("benchmark: {group}, {next} of {total}: {case}"))
    }
}

/// Times the cases, a line each.
pub fn ratios(title: &'static str, cases: Vec<Case>) -> Lines {
    let judges = JUDGES.map(|judge| format!("{:>12}", judge.name)).concat();
    let head = format!(
        "\n{title}: nanoseconds of one judgement, and ratios\n{:36}{:28}{judges}{:>15}{:>13}\n",
        "input", "finding", "proved/oracle", "proved/fast"
    );
    let mut counter = Counter::new(title, cases.len());
    let line = move |case: Case| {
        let _shown = counter.measuring(&case.name);
        let finding = case.agreed()?;
        let [proved, oracle, fast] = nanoseconds(&case);
        let times = format!("{proved:12.0}{oracle:12.0}{fast:12.0}");
        let ratios = format!("{:15.2}{:13.2}", proved / oracle, proved / fast);
        Ok(format!("{:36}{finding:28}{times}{ratios}\n", case.name))
    };
    Box::new(once(Ok(head)).chain(cases.into_iter().map(line)))
}

/// Times series of inputs that grow, a table each.
pub fn growths(all: Vec<Series>) -> Lines {
    let mut counter = Counter::new("growth", all.iter().map(|series| series.points.len()).sum());
    Box::new(all.into_iter().flat_map(move |series| {
        let first = counter;
        counter.next += series.points.len();
        exponents(series, first)
    }))
}

/// Times a series of inputs that grow, with the exponents between neighbours: 1 for time that grows like the
/// input, 2 for its square.
fn exponents(series: Series, mut counter: Counter) -> Lines {
    let judges = JUDGES.map(|judge| format!("{:>14}{:>6}", judge.name, "exp")).concat();
    let head = format!(
        "\n{}: nanoseconds, and the exponent since the line above\n{:>10}{judges}\n",
        series.title, series.unit
    );
    let mut before: Option<(usize, [f64; 3])> = None;
    let line = move |(size, case): (usize, Case)| {
        let _shown = counter.measuring(&format!("{size} {}", series.unit));
        case.agreed()?;
        let times = nanoseconds(&case);
        let mut line = format!("{size:10}");
        for (judge, time) in times.iter().enumerate() {
            let exponent = before.map(|(smaller, earlier)| {
                let growth = (time / earlier[judge]).ln() / (size as f64 / smaller as f64).ln();
                format!("{growth:.2}")
            });
            line += &format!("{time:14.0}{:>6}", exponent.unwrap_or_default());
        }
        before = Some((size, times));
        Ok(line + "\n")
    };
    Box::new(once(Ok(head)).chain(series.points.into_iter().map(line)))
}

/// The bytes of stack that the proved library and the fast implementation use.
pub fn stacks(cases: Vec<Case>) -> Lines {
    let head = format!(
        "\nstack: bytes below the caller's frame\n{:36}{:28}{:>12}{:>12}\n",
        "input", "finding", PROVED.name, FAST.name
    );
    let mut counter = Counter::new("stack", cases.len());
    let line = move |case: Case| {
        let _shown = counter.measuring(&case.name);
        let finding = case.agreed()?;
        let [proved, fast] = [PROVED, FAST].map(|judge| stack::bytes(&judge, &case));
        Ok(format!("{:36}{finding:28}{proved:12}{fast:12}\n", case.name))
    };
    Box::new(once(Ok(head)).chain(cases.into_iter().map(line)))
}
