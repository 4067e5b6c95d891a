//! The sample files, document 01's readings among them: each line is the one that `crates/readings/stdout` has. Of texts
//! that of the oracle too, and the file.

use std::fs;
use std::path::{Path, PathBuf};
use trial::differential::implementation::type_pattern;
use trial::fast;

/// The samples and their lines; those of texts, or of folders.
fn listed(of_texts: bool) -> Vec<(PathBuf, String)> {
    let readings = Path::new(env!("CARGO_MANIFEST_DIR")).join("../crates/readings");
    let lines = fs::read_to_string(readings.join("stdout")).expect("crates/readings/stdout");
    let samples = lines.lines().map(|line| line.split_once(": ").expect("name: finding"));
    let samples = samples.filter(|(name, _)| name.starts_with("texts/") == of_texts);
    samples.map(|(name, line)| (readings.join("data").join(name), line.to_string())).collect()
}

fn bytes(path: PathBuf) -> Vec<u8> {
    fs::read(path).unwrap_or_default()
}

#[test]
fn every_sample_is_judged_as_listed() {
    let samples = listed(false);
    assert!(samples.len() > 100);
    for (folder, line) in samples {
        let [pattern, proposal] = ["pattern.bin", "proposal.bin"].map(|file| bytes(folder.join(file)));
        let judge = if proposal.starts_with(b"TAB") { fast::judge_tableau } else { fast::judge_model };
        assert_eq!(judge(&pattern, &proposal, &mut [7; 8192]).to_string(), line, "{}", folder.display());
    }
}

/// One line feed at the end of a text is no part of it; a text that is refused has no file.
#[test]
fn every_text_is_typed_as_listed() {
    let samples = listed(true);
    assert!(samples.len() > 50);
    for (sample, line) in samples {
        let [mut text, file] = ["txt", "bin"].map(|ending| bytes(sample.with_extension(ending)));
        text.pop_if(|last| *last == b'\n');
        for implementation in [fast::type_pattern, type_pattern] {
            let mut destination = [7; 1026];
            let finding = implementation(&text, &mut destination);
            assert_eq!(finding.to_string(), line, "{}", sample.display());
            assert_eq!(destination[..file.len()], file, "{}", sample.display());
            assert!(destination[file.len()..].iter().all(|&byte| byte == 7), "{}", sample.display());
        }
    }
}
