//! The compiled bench program run on pairs of files, and what it prints compared with what the independent
//! implementation finds; and the typist on texts.

mod folder;
mod pairs;
pub mod typist;

use folder::Folder;
use pairs::{generated, odd_files, sampled};
use std::io;
use std::path::Path;
use std::process::Command;
use tools::output::print;

/// The bytes that the program reads of either file: "`pattern.bin` (up to 1,027 bytes) and
/// `proposal.bin` (up to 24,585)".
const PATTERN_BYTES: usize = 1027;
const PROPOSAL_BYTES: usize = 24_585;

/// A working area that is long enough for both judgements.
const AREA: usize = 8192;

/// Runs every pair and prints how many there were; whether all came out as expected.
pub fn run(program: &Path, samples: Option<&Path>) -> Result<bool, String> {
    let program = program.canonicalize().map_err(|error| naming(program, error))?;
    let pairs = [generated(), odd_files(), samples.map_or(Ok(Vec::new()), sampled)?];
    let [generated, odd, samples] = pairs.each_ref().map(Vec::len);
    print(format!("programs: {generated} pairs generated, {odd} of odd files, {samples} samples\n"))?;
    let folder = Folder::new()?;
    if folder.opens_shut()? {
        print("programs: run as root: files without permission open all the same\n")?;
    }
    let mut wrong = 0;
    for pair in pairs.iter().flatten() {
        folder.put("pattern.bin", &pair.pattern)?;
        folder.put("proposal.bin", &pair.proposal)?;
        let (expected, found) = (expected(&folder), found(&program, &folder)?);
        if found != expected {
            wrong += 1;
            eprintln!("programs: {}: {found}, expected {expected}", pair.words);
        }
    }
    let all = generated + odd + samples;
    print(format!("programs: {all} pairs of files, {wrong} judged otherwise than expected\n"))?;
    Ok(wrong == 0)
}

/// An error with the file that it is about.
fn naming(path: &Path, error: io::Error) -> String {
    format!("{}: {error}", path.display())
}

/// What the program should print: the finding of the independent implementation on the two files.
fn expected(folder: &Folder) -> String {
    let pattern = folder.read("pattern.bin", PATTERN_BYTES);
    let proposal = folder.read("proposal.bin", PROPOSAL_BYTES);
    let judge = if proposal.starts_with(b"TAB") { oracle::tableau::judge } else { oracle::model::judge };
    let finding = judge(&pattern, &proposal, &mut [0; AREA]);
    outcome(format!("{finding}\n").as_bytes(), b"", Some(0))
}

/// What the program prints, and its exit status.
fn found(program: &Path, folder: &Folder) -> Result<String, String> {
    let output = Command::new(program).current_dir(&folder.path).output();
    let output = output.map_err(|error| naming(program, error))?;
    Ok(outcome(&output.stdout, &output.stderr, output.status.code()))
}

/// An outcome in words: what was printed and the exit status, if there is one.
fn outcome(stdout: &[u8], stderr: &[u8], status: Option<i32>) -> String {
    let (stdout, stderr) = (String::from_utf8_lossy(stdout), String::from_utf8_lossy(stderr));
    let status = status.map_or("none".to_string(), |status| status.to_string());
    format!("{stdout:?} on stdout, {stderr:?} on stderr, exit status {status}")
}
