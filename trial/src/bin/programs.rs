//! Runs the compiled bench program on a few hundred pairs of files, some missing or oversized, and
//! compares the line it prints with what the independent implementation finds; or the typist on a few
//! hundred texts, and compares what it prints and writes.

use std::ffi::OsString;
use std::path::Path;
use std::process::ExitCode;
use trial::ending::status;
use trial::programs;

const USAGE: &str = "usage: programs PROGRAM [SAMPLES]
       programs --typist PROGRAM";

fn main() -> ExitCode {
    let words: Vec<OsString> = std::env::args_os().skip(1).collect();
    let passed = match &words[..] {
        [typist, program] if typist == "--typist" => programs::typist::run(Path::new(program)),
        [program] if program != "--typist" => programs::run(Path::new(program), None),
        [program, samples] => programs::run(Path::new(program), Some(Path::new(samples))),
        _ => {
            eprintln!("{USAGE}");
            return ExitCode::from(2);
        }
    };
    status("programs", passed)
}
