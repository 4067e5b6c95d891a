//! From the words behind `riser` to a subcommand, and from its end to an exit status.

use crate::arguments::{Arguments, HELP, Opt, quoted};
use crate::command::{Command, Failure, Status};
use crate::commands::COMMANDS;
use crate::output;
use crate::similar;
use std::ffi::{OsStr, OsString};
use std::process::ExitCode;

const ABOUT: &str = "\
Judges patterns at a riser: where one occurs in a block, or that it can't occur.
Findings are those of the proved library.
";
const STATUSES: &str = "\
Exit status: 0 met or closed, or the file is written; 1 unmet, or nothing found;
2 refused; 3 bad arguments, or a file that can't be read or written; 4 two
implementations differ, so that neither is trusted.
";
const MORE: &str = "`riser help COMMAND` says more of a command, with an example.\n";
const USAGE: &str = "riser COMMAND ..";

/// Words that ask for the version.
const VERSION: [&str; 2] = ["--version", "-V"];

/// Runs what the words ask for.
pub fn start(words: Vec<OsString>) -> ExitCode {
    let mut words = words.into_iter();
    let Some(first) = words.next() else {
        return end(None, Err(Failure::usage("no command is given")));
    };
    let rest: Vec<OsString> = words.collect();
    if asks_for_help(&first) {
        return end(None, help(&rest));
    }
    if is_one_of(&first, &VERSION) {
        return end(None, version(&rest));
    }
    match find(&first) {
        Ok(command) => end(Some(command), run(command, rest)),
        Err(failure) => end(None, Err(failure)),
    }
}

fn asks_for_help(word: &OsStr) -> bool {
    word == "help" || is_one_of(word, &HELP)
}

fn is_one_of(word: &OsStr, words: &[&str]) -> bool {
    words.iter().any(|known| word == *known)
}

fn find(name: &OsStr) -> Result<&'static Command, Failure> {
    let unknown = || {
        let names = COMMANDS.iter().map(|command| command.name).chain(["help", "--help", "--version"]);
        Failure::usage(format!("there is no command {}{}", quoted(name), similar::hint(name, names)))
    };
    COMMANDS.iter().copied().find(|command| name == command.name).ok_or_else(unknown)
}

/// Runs a command, unless its help is asked for.
fn run(command: &Command, words: Vec<OsString>) -> Result<Status, Failure> {
    let arguments = Arguments::read(words, command.options)?;
    if arguments.help { print(help_of(command)) } else { (command.run)(&arguments) }
}

/// `riser help`, or `riser help COMMAND`.
fn help(words: &[OsString]) -> Result<Status, Failure> {
    match words {
        [] => print(overview()),
        [name] if asks_for_help(name) => print(overview()),
        [name] => print(help_of(find(name)?)),
        _ => Err(Failure::usage("help is of one command")),
    }
}

fn version(words: &[OsString]) -> Result<Status, Failure> {
    match words {
        [] => print(format!("riser {}\n", env!("CARGO_PKG_VERSION"))),
        _ => Err(Failure::usage("the version is asked for alone")),
    }
}

fn overview() -> String {
    let rows = COMMANDS.iter().map(|command| format!("  {:9}{}\n", command.name, command.summary));
    let commands: String = rows.collect();
    format!("{ABOUT}\nusage: {USAGE}\n\n{commands}  {:9}print this\n\n{MORE}\n{STATUSES}", "help")
}

fn help_of(command: &Command) -> String {
    let Command { usage, about, options, examples, .. } = command;
    let options: String = options.iter().map(option_lines).collect();
    format!("usage: {usage}\n\n{about}\n{options}\n{examples}\n{STATUSES}")
}

/// An option in a help: its name and value, and beside it what it does.
fn option_lines(option: &Opt) -> String {
    let named = format!("{} {}", option.name, option.takes.names().0);
    let lines = option.help.lines().enumerate().map(|(number, line)| match number {
        0 => format!("  {named:14}{line}\n"),
        _ => format!("  {:14}{line}\n", ""),
    });
    lines.collect()
}

fn print(text: String) -> Result<Status, Failure> {
    output::print(text)?;
    Ok(Status::Found)
}

/// The exit status, and on standard error why, if what was asked for isn't there.
fn end(command: Option<&Command>, ended: Result<Status, Failure>) -> ExitCode {
    let status = ended.unwrap_or_else(|failure| {
        output::complain(&message(command, &failure));
        failure.status
    });
    ExitCode::from(status as u8)
}

/// A message by the command at fault, with its usage if its arguments are.
fn message(command: Option<&Command>, Failure { message, of_usage, .. }: &Failure) -> String {
    let name = command.map_or("riser".to_string(), |command| format!("riser {}", command.name));
    let help = command.map_or("`riser help` lists the commands.".to_string(), |command| {
        format!("`riser help {}` says more.", command.name)
    });
    let usage = command.map_or(USAGE, |command| command.usage);
    if *of_usage {
        format!("{name}: {message}\nusage: {usage}\n{help}")
    } else {
        format!("{name}: {message}")
    }
}
