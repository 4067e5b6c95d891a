//! The pairs of files that the bench program is run on.

use super::naming;
use crate::generate::Generator;
use crate::generate::input::Input;
use std::fs::{self, DirEntry};
use std::io;
use std::path::{Path, PathBuf};

/// How many of the differential run's inputs are tried, and of which seed.
const GENERATED: u64 = 300;
const SEED: u64 = 1;

/// What stands in the place of a file.
#[derive(Clone)]
pub enum Content {
    Missing,
    Folder,
    Bytes(Vec<u8>),
    /// A file with these bytes that nobody but the superuser may open.
    Shut(Vec<u8>),
}

/// A pair of files, with the words that name it in a message.
pub struct Pair {
    pub words: String,
    pub pattern: Content,
    pub proposal: Content,
}

/// Inputs of the differential run, of all kinds.
pub fn generated() -> Vec<Pair> {
    let mut generator = Generator::new(SEED);
    let mut input = Input::blank();
    let mut pair = |number| {
        generator.make(number, &mut input);
        Pair {
            words: format!("input {number} of seed {SEED}"),
            pattern: Content::Bytes(input.pattern.clone()),
            proposal: Content::Bytes(input.proposal.clone()),
        }
    };
    (0..GENERATED).map(&mut pair).collect()
}

/// Every combination of files that are missing, folders, empty, shut, good, as long as a good file can
/// be, or longer than the program reads.
pub fn odd_files() -> Vec<Pair> {
    let pattern = b"PAT\x01\x00\x01\x01\x00\x00\x00";
    let model = b"DAT\x01\x00\x01\x00\x00\x00\x01\x00\x00\x00\x00\x00\x00\x00\x00\x00\x00\x00";
    let tableau = b"TAB\x01\x00\x00\x00\x10\x01";
    let patterns = contents(pattern, &[longest_pattern()], &[1026, 1027, 1028, 100_000]);
    let lengths = [14, 24_584, 24_585, 24_586, 1_000_000];
    let proposals = contents(model, &[model.to_vec(), tableau.to_vec()], &lengths);
    let mut pairs = Vec::new();
    for (pattern_words, pattern) in &patterns {
        for (proposal_words, proposal) in &proposals {
            let words = format!("pattern.bin {pattern_words}, proposal.bin {proposal_words}");
            pairs.push(Pair { words, pattern: pattern.clone(), proposal: proposal.clone() });
        }
    }
    pairs
}

/// What may stand in the place of a file: nothing, a folder, no bytes, a good file, the same shut, and
/// files made as long as the lengths say.
fn contents(good: &[u8], files: &[Vec<u8>], lengths: &[usize]) -> Vec<(String, Content)> {
    let mut contents = vec![
        ("missing".to_string(), Content::Missing),
        ("a folder".to_string(), Content::Folder),
        ("empty".to_string(), Content::Bytes(Vec::new())),
        ("good".to_string(), Content::Bytes(good.to_vec())),
        ("shut".to_string(), Content::Shut(good.to_vec())),
    ];
    for file in files {
        for &length in lengths {
            let mut bytes = file.clone();
            bytes.resize(length, 0);
            let mark = String::from_utf8_lossy(&bytes[..3]).into_owned();
            contents.push((format!("of {length} bytes that begin {mark}"), Content::Bytes(bytes)));
        }
    }
    contents
}

/// A property and 254 times "not" of the entry before.
fn longest_pattern() -> Vec<u8> {
    let nots = (0..254).flat_map(|entry| [3, entry, 0, 0]);
    b"PAT\x01\x00\xff\x01\x00\x00\x00".iter().copied().chain(nots).collect()
}

/// The pairs in the folders of a folder, by name. A file that one of them lacks is missing.
pub fn sampled(samples: &Path) -> Result<Vec<Pair>, String> {
    let entries = fs::read_dir(samples).and_then(|entries| entries.collect::<io::Result<Vec<_>>>());
    let entries = entries.map_err(|error| naming(samples, error))?;
    let mut folders: Vec<PathBuf> = entries.iter().map(DirEntry::path).filter(|path| path.is_dir()).collect();
    folders.sort();
    let pair = |folder: &PathBuf| {
        Ok(Pair {
            words: folder.display().to_string(),
            pattern: content(&folder.join("pattern.bin"))?,
            proposal: content(&folder.join("proposal.bin"))?,
        })
    };
    folders.iter().map(pair).collect()
}

fn content(path: &Path) -> Result<Content, String> {
    match fs::read(path) {
        Ok(bytes) => Ok(Content::Bytes(bytes)),
        Err(error) if error.kind() == io::ErrorKind::NotFound => Ok(Content::Missing),
        Err(error) => Err(naming(path, error)),
    }
}
