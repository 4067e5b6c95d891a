//! The arguments of a subcommand: files, and options in any order among them.

use crate::command::Failure;
use crate::files;
use crate::files::source::Source;
use crate::files::text::Text;
use crate::similar;
use std::collections::BTreeMap;
use std::ffi::{OsStr, OsString};
use std::os::unix::ffi::{OsStrExt, OsStringExt};
use std::path::{Path, PathBuf};

/// An option.
pub struct Opt {
    pub name: &'static str,
    pub takes: Takes,
    /// What it does, in the help of a subcommand.
    pub help: &'static str,
}

/// What stands behind an option.
#[derive(Clone, Copy, PartialEq, Eq)]
pub enum Takes {
    Nothing,
    Text,
    /// A file that is read; `-` is standard input.
    Input,
    /// A file that is written.
    Output,
    Number,
}

impl Takes {
    /// What it is called in help, and in messages.
    pub fn names(self) -> (&'static str, &'static str) {
        match self {
            Takes::Nothing => ("", ""),
            Takes::Text => ("TEXT", "a text"),
            Takes::Input | Takes::Output => ("FILE", "a file"),
            Takes::Number => ("N", "a number"),
        }
    }
}

/// The options that several subcommands have.
pub const TEXT: Opt =
    Opt { name: "-e", takes: Takes::Text, help: "take the typed pattern TEXT, not a pattern file" };
pub const TEXT_FILE: Opt = Opt {
    name: "--text",
    takes: Takes::Input,
    help: "take the typed pattern in FILE, or on standard input if\n\
           FILE is -; a line feed at its end is no part of it",
};
pub const OVER: Opt = Opt { name: "--over", takes: Takes::Nothing, help: "replace FILE if it is there" };

/// The options that ask for help, which every subcommand has.
pub const HELP: [&str; 2] = ["--help", "-h"];

/// What was given.
#[derive(Debug, Default)]
pub struct Arguments {
    files: Vec<PathBuf>,
    options: BTreeMap<&'static str, OsString>,
    /// Whether help is asked for.
    pub help: bool,
}

impl Arguments {
    /// Takes the words apart, up to one that asks for help. `--` ends the options; `--option=value` is `--option value`.
    pub fn read(words: Vec<OsString>, known: &[Opt]) -> Result<Arguments, Failure> {
        let mut arguments = Arguments::default();
        let mut words = words.into_iter();
        while let Some(word) = words.next() {
            if word == "--" {
                arguments.files.extend(words.by_ref().map(PathBuf::from));
            } else if HELP.iter().any(|help| word == *help) {
                return Ok(Arguments { help: true, ..Arguments::default() });
            } else if word == "-" {
                return Err(Failure::usage("'-' is standard input, and stands behind --text alone"));
            } else if word.as_bytes().starts_with(b"-") {
                arguments.take_option(&word, &mut words, known)?;
            } else {
                arguments.files.push(word.into());
            }
        }
        Ok(arguments)
    }

    fn take_option(
        &mut self,
        word: &OsStr,
        following: &mut impl Iterator<Item = OsString>,
        known: &[Opt],
    ) -> Result<(), Failure> {
        let (name, joined) = name_and_value(word);
        let Some(option) = known.iter().find(|option| name == option.name) else {
            let hint = similar::hint(name, known.iter().map(|option| option.name));
            return Err(Failure::usage(format!("there is no option {}{hint}", quoted(name))));
        };
        let value = match (option.takes, joined) {
            (Takes::Nothing, None) => Some(OsString::new()),
            (Takes::Nothing, Some(_)) => {
                return Err(Failure::usage(format!("{} takes no value", option.name)));
            }
            (_, Some(joined)) => Some(joined.to_owned()),
            (_, None) => following.next(),
        };
        let value = value.ok_or_else(|| wanted(option, ""))?;
        if option.takes == Takes::Output && value == "-" {
            return Err(wanted(option, ", not standard output"));
        }
        match self.options.insert(option.name, value) {
            None => Ok(()),
            Some(_) => Err(Failure::usage(format!("{} is given twice", option.name))),
        }
    }

    pub fn has(&self, option: &Opt) -> bool {
        self.options.contains_key(option.name)
    }

    /// The file that an option names.
    pub fn path(&self, option: &Opt) -> Option<&Path> {
        self.options.get(option.name).map(Path::new)
    }

    /// The same, or the file that is meant if none is named.
    pub fn path_or<'a>(&'a self, option: &Opt, unnamed: &'a str) -> &'a Path {
        self.path(option).unwrap_or(Path::new(unnamed))
    }

    /// The whole number behind an option, or what stands for it.
    pub fn number(&self, option: &Opt, unsaid: u64) -> Result<u64, Failure> {
        let Some(value) = self.options.get(option.name) else { return Ok(unsaid) };
        let is_number = !value.is_empty() && value.as_bytes().iter().all(u8::is_ascii_digit);
        match value.to_str().and_then(|value| value.parse().ok()) {
            Some(number) if is_number => Ok(number),
            _ if is_number => Err(Failure::usage(format!("the number behind {} is too large", option.name))),
            _ => Err(wanted(option, &format!(", not {}", quoted(value)))),
        }
    }

    /// The text that an option gives or leads to, if there is one.
    fn text(&self) -> Result<Option<Text>, Failure> {
        let typed = self.options.get(TEXT.name).map(|text| Text::Argument(text.clone().into_vec()));
        let file = self.path(&TEXT_FILE).map(|file| Text::File(file.to_owned()));
        match (typed, file) {
            (Some(_), Some(_)) => Err(Failure::usage("the pattern is typed twice, by -e and by --text")),
            (typed, file) => Ok(typed.or(file)),
        }
    }

    /// The pattern, and as many files behind it, which are called so.
    pub fn pattern_and<const N: usize>(&self, called: [&str; N]) -> Result<(Source, [&Path; N]), Failure> {
        let (pattern, files) = match (self.text()?, &self.files[..]) {
            (Some(text), files) => (Source::Text(text), files),
            (None, [pattern, files @ ..]) => (Source::File(pattern.clone()), files),
            (None, []) => return Err(Failure::usage("no pattern is given")),
        };
        Ok((pattern, named(files, called)?))
    }

    /// The text alone: an option's, or the one word that is given.
    pub fn only_text(&self) -> Result<Text, Failure> {
        match (self.text()?, &self.files[..]) {
            (Some(text), []) => Ok(text),
            (None, [word]) => Ok(Text::Argument(word.as_os_str().as_bytes().to_vec())),
            (None, []) => Err(Failure::usage("no text is given")),
            _ => Err(Failure::usage("more than one text is given")),
        }
    }

    /// As many files, which are called so.
    pub fn files<const N: usize>(&self, called: [&str; N]) -> Result<[&Path; N], Failure> {
        named(&self.files, called)
    }
}

/// What an option wants behind it, and what it had instead.
fn wanted(option: &Opt, instead: &str) -> Failure {
    Failure::usage(format!("{} wants {} behind it{instead}", option.name, option.takes.names().1))
}

/// As many files as are called for.
fn named<'a, const N: usize>(files: &'a [PathBuf], called: [&str; N]) -> Result<[&'a Path; N], Failure> {
    if let Some(more) = files.get(N) {
        return Err(Failure::usage(format!("there is a file too many: {}", files::name(more))));
    }
    match called.get(files.len()) {
        Some(missing) => Err(Failure::usage(format!("no {missing} is given"))),
        None => Ok(std::array::from_fn(|place| files[place].as_path())),
    }
}

/// The name of an option, and the value that a long one may have behind `=`.
fn name_and_value(word: &OsStr) -> (&OsStr, Option<&OsStr>) {
    let bytes = word.as_bytes();
    match bytes.iter().position(|&byte| byte == b'=') {
        Some(place) if bytes.starts_with(b"--") => {
            (OsStr::from_bytes(&bytes[..place]), Some(OsStr::from_bytes(&bytes[place + 1..])))
        }
        _ => (word, None),
    }
}

/// A word in a message.
pub fn quoted(word: &OsStr) -> String {
    format!("'{}'", word.to_string_lossy().escape_debug())
}
