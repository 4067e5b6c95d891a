//! The compiled typist run on texts, and what it prints and writes compared with what the independent implementation
//! makes of them.

use super::folder::Folder;
use super::pairs::Content;
use super::{naming, outcome};
use crate::differential::implementation::type_pattern;
use crate::generate::Generator;
use crate::generate::input::{Input, Operation};
use crate::generate::texts::exactly;
use oracle::finding::Finding;
use std::io::{self, ErrorKind, Write};
use std::path::Path;
use std::process::{Child, Command, Output, Stdio};
use std::time::Duration;
use tools::output::print;
use unit::PATTERN_LONGEST;

/// How many texts of the differential run are tried, and of which seed.
const GENERATED: usize = 300;
const SEED: u64 = 1;

/// The file that the program writes, and the one that it writes beside it and renames.
const FILE: &str = "pattern.bin";
const PART: &str = "pattern.bin.new";

/// Between two pieces of a text.
const PAUSE: Duration = Duration::from_millis(20);

/// A text, with the words that name it in a message, and how many of its bytes come at once before a pause.
struct Typed {
    words: String,
    text: Vec<u8>,
    at_once: usize,
}

/// Runs every text, with a file there before and without, and one where a folder stands in the file's place, and prints
/// how many there were; whether all came out as expected.
pub fn run(program: &Path) -> Result<bool, String> {
    let program = program.canonicalize().map_err(|error| naming(program, error))?;
    let texts = [generated(), odd(), in_pieces()];
    let [generated, odd, pieces] = texts.each_ref().map(Vec::len);
    print(format!(
        "programs: {generated} texts generated, {odd} odd ones, {pieces} in pieces, 1 that can't be written\n"
    ))?;
    let folder = Folder::new()?;
    let before = [Content::Missing, Content::Bytes(vec![7; 2 * PATTERN_LONGEST]), Content::Bytes(Vec::new())];
    let unwritten = whole("a text that can't be written".to_string(), b"p0");
    let cases = texts.iter().flatten().zip(before.iter().cycle()).chain([(&unwritten, &Content::Folder)]);
    let (mut all, mut wrong) = (0, 0);
    for (typed, before) in cases {
        all += 1;
        folder.put(FILE, before)?;
        folder.put(PART, &Content::Missing)?;
        let expected = expected(&typed.text, before);
        let found = found(&program, &folder, typed)?;
        if found != expected {
            wrong += 1;
            eprintln!("programs: {}: {found}, expected {expected}", typed.words);
        }
    }
    print(format!("programs: {all} texts, {wrong} typed otherwise than expected\n"))?;
    Ok(wrong == 0)
}

/// Texts of the differential run, of all kinds.
fn generated() -> Vec<Typed> {
    let mut generator = Generator::new(SEED);
    let mut input = Input::blank();
    let inputs = (0..).filter_map(|number| {
        generator.make(number, &mut input);
        let words = format!("input {number} of seed {SEED}");
        (input.operation == Operation::Typing).then(|| whole(words, &input.pattern))
    });
    inputs.take(GENERATED).flat_map(|typed| [line(&typed), typed]).collect()
}

/// A text as a person ends it, with a line feed.
fn line(typed: &Typed) -> Typed {
    whole(format!("{} and a line feed", typed.words), &[&typed.text[..], b"\n"].concat())
}

/// No text, each byte by itself, texts at the limit and over it, some of them far over.
fn odd() -> Vec<Typed> {
    let bytes = (0..=255).map(|byte| whole(format!("byte {byte}"), &[byte]));
    let lengths = [1023, 1024, 1025, 1026, 4096, 65_536, 65_538, 1_000_000];
    let nodes = lengths.map(|length| whole(format!("a node of {length} bytes"), &exactly(length)));
    let nots = lengths.map(|length| whole(format!("{length} nots"), &vec![b'!'; length]));
    let lines = ["p0\n", "p0\n\n", "p0\r\n", "p0 ", "\np0", "p0\0"]
        .map(|text| whole(format!("{text:?}"), text.as_bytes()));
    let none = [whole("no text".to_string(), b"")];
    bytes.chain(nodes).chain(nots).chain(lines).chain(none).collect()
}

/// Texts of which a part comes later.
fn in_pieces() -> Vec<Typed> {
    let cut = |(text, at_once): (Vec<u8>, usize)| {
        let words = format!("{} bytes, {at_once} of them at once", text.len());
        Typed { words, text, at_once }
    };
    let small = b"(<0>p0&!<0>p0)".to_vec();
    let texts = [(small.clone(), 1), (small.clone(), 7), (small, 13), (exactly(1024), 512)];
    texts
        .into_iter()
        .chain([(exactly(1024), 1023), (exactly(1025), 1024), (exactly(5000), 1025)])
        .map(cut)
        .collect()
}

fn whole(words: String, text: &[u8]) -> Typed {
    Typed { words, text: text.to_vec(), at_once: text.len() }
}

/// What the program should print, and what should stand in the file's place then. One line feed at the end is no part
/// of the text.
fn expected(read: &[u8], before: &Content) -> String {
    let mut destination = [0; PATTERN_LONGEST];
    let finding = type_pattern(read.strip_suffix(b"\n").unwrap_or(read), &mut destination);
    let (line, after) = match (finding, before) {
        (Finding::Written { .. }, Content::Folder) => ("not written".to_string(), before),
        (Finding::Written { length }, _) => {
            (finding.to_string(), &Content::Bytes(destination[..length.into()].to_vec()))
        }
        _ => (finding.to_string(), before),
    };
    in_words(&outcome(format!("{line}\n").as_bytes(), b"", Some(0)), after)
}

/// What the program prints, its exit status, what stands in the file's place then, and whether its part is left.
fn found(program: &Path, folder: &Folder, typed: &Typed) -> Result<String, String> {
    let output = output(program, folder, typed).map_err(|error| naming(program, error))?;
    let printed = outcome(&output.stdout, &output.stderr, output.status.code());
    let [file, part] = [FILE, PART].map(|name| folder.path.join(name));
    let after = if file.is_dir() {
        Content::Folder
    } else if file.exists() {
        Content::Bytes(folder.read(FILE, usize::MAX))
    } else {
        Content::Missing
    };
    let left = if part.exists() { ", its part left beside it" } else { "" };
    Ok(in_words(&printed, &after) + left)
}

fn output(program: &Path, folder: &Folder, typed: &Typed) -> io::Result<Output> {
    let mut command = Command::new(program);
    command.current_dir(&folder.path).stdin(Stdio::piped()).stdout(Stdio::piped()).stderr(Stdio::piped());
    let mut child = command.spawn()?;
    hand_over(&mut child, typed)?;
    child.wait_with_output()
}

/// Writes the text to the program, which may have read enough before its end.
fn hand_over(child: &mut Child, typed: &Typed) -> io::Result<()> {
    let mut input = child.stdin.take().expect("its input is a pipe");
    let (first, rest) = typed.text.split_at(typed.at_once);
    let written = input.write_all(first).and_then(|()| {
        if !rest.is_empty() {
            std::thread::sleep(PAUSE);
        }
        input.write_all(rest)
    });
    written.or_else(|error| if error.kind() == ErrorKind::BrokenPipe { Ok(()) } else { Err(error) })
}

fn in_words(printed: &str, file: &Content) -> String {
    let file = match file {
        Content::Missing => "missing".to_string(),
        Content::Folder => "a folder".to_string(),
        Content::Bytes(bytes) | Content::Shut(bytes) => bytes.escape_ascii().to_string(),
    };
    format!("{printed}, {FILE} {file}")
}
