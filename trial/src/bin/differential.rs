//! The differential run: generated inputs, judged by the proved library, by the independent
//! implementation and by the fast one, which must agree in everything they leave behind.

use std::collections::BTreeMap;
use std::ffi::OsString;
use std::process::ExitCode;
use tools::output::print;
use trial::differential::compare::Comparer;
use trial::differential::implementation::{FAST, Implementation, ORACLE, UNIT};
use trial::differential::run::{Failure, Run, against};
use trial::differential::tally::Tally;
use trial::differential::{fault, report};
use trial::ending::status;
use trial::generate::Generator;
use trial::generate::input::Input;

const USAGE: &str = "usage: differential [--seed S] [--long | --count N] [--threads N]
       differential [--seed S] --only I";

const OPTIONS: [&str; 5] = ["--seed", "--long", "--count", "--threads", "--only"];

/// Options that don't go together.
const APART: [[&str; 2]; 4] =
    [["--long", "--count"], ["--only", "--long"], ["--only", "--count"], ["--only", "--threads"]];

const SHORT: u64 = 100_000;
const LONG: u64 = 10_000_000;

const IMPLEMENTATIONS: [Implementation; 3] = [ORACLE, UNIT, FAST];

/// What was asked for.
struct Arguments {
    run: Run,
    /// The one input to be shown in full.
    only: Option<u64>,
}

fn main() -> ExitCode {
    let Some(Arguments { run, only }) = arguments(std::env::args_os().skip(1)) else {
        eprintln!("{USAGE}");
        return ExitCode::from(2);
    };
    fault::watch();
    let passed = match only {
        Some(number) => show(run.seed, number),
        None => match run.go(&IMPLEMENTATIONS) {
            Ok(tally) => passes(&tally),
            Err(failure) => fails(run.seed, &failure),
        },
    };
    status("differential", passed)
}

fn arguments(words: impl Iterator<Item = OsString>) -> Option<Arguments> {
    let options = options(words)?;
    let given = |option: &&str| options.contains_key(option);
    if APART.iter().any(|pair| pair.iter().all(given)) {
        return None;
    }
    let number = |option: &str| options.get(option).copied();
    let threads = match number("--threads") {
        Some(0) => return None,
        Some(threads) => usize::try_from(threads).ok()?,
        None => std::thread::available_parallelism().map_or(1, |cores| cores.get()),
    };
    let count = number("--long").or(number("--count")).unwrap_or(SHORT);
    let run = Run { seed: number("--seed").unwrap_or(1), count, threads };
    Some(Arguments { run, only: number("--only") })
}

/// The options with their numbers. `None` if one is unknown, comes twice or lacks its number.
fn options(mut words: impl Iterator<Item = OsString>) -> Option<BTreeMap<&'static str, u64>> {
    let mut options = BTreeMap::new();
    while let Some(word) = words.next() {
        let option = OPTIONS.into_iter().find(|&option| word == option)?;
        let number = match option {
            "--long" => LONG,
            _ => words.next()?.to_str()?.parse().ok()?,
        };
        if options.insert(option, number).is_some() {
            return None;
        }
    }
    Some(options)
}

/// Prints the table, and what never occurred.
fn passes(tally: &Tally) -> Result<bool, String> {
    print(tally)?;
    let missing = tally.missing();
    for what in &missing {
        eprintln!("differential: never occurred: {what}");
    }
    Ok(missing.is_empty())
}

/// Says where the implementations differ, and shows that input.
fn fails(seed: u64, failure: &Failure) -> Result<bool, String> {
    eprintln!("differential: input {} of seed {seed}: {}", failure.number, failure.difference);
    eprintln!("differential: repeat with --seed {seed} --only {}", failure.number);
    show(seed, failure.number)?;
    Ok(false)
}

/// Prints one input in full and what each implementation finds; whether they agree.
fn show(seed: u64, number: u64) -> Result<bool, String> {
    let mut input = Input::blank();
    Generator::new(seed).make(number, &mut input);
    print(report::describe(&input, seed, number))?;
    fault::note(number);
    let (findings, difference) =
        report::findings(&mut Comparer::new(), &input, against(number), &IMPLEMENTATIONS);
    print(findings)?;
    if let Some(difference) = &difference {
        print(format!("difference  {difference}\n"))?;
    }
    Ok(difference.is_none())
}
