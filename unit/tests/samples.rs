//! The wrapper on the sample files: each line is the one that `crates/readings/stdout` has.

use std::collections::HashMap;
use std::fs;
use std::path::{Path, PathBuf};

use unit::{Finding, MODEL_AREA, MODEL_LONGEST, PATTERN_LONGEST, TABLEAU_AREA};

/// The samples that are named in a list, with their lines.
fn listed_in(list: &str) -> Vec<(PathBuf, String)> {
    let readings = Path::new(env!("CARGO_MANIFEST_DIR")).join("../crates/readings");
    let read = |file: &str| fs::read_to_string(readings.join(file)).expect(file);
    let (names, stdout) = (read(&format!("data/{list}")), read("stdout"));
    let lines = stdout.lines().map(|line| line.split_once(": ").expect("name: finding"));
    let lines: HashMap<&str, &str> = lines.collect();
    names.lines().map(|name| (readings.join("data").join(name), lines[name].to_string())).collect()
}

/// The sample folders with the lines that are listed for them.
fn listed() -> Vec<(PathBuf, String)> {
    let samples = listed_in("samples.txt");
    assert!(samples.len() > 100);
    samples
}

/// The two files of a sample; one that can't be opened counts as empty.
fn files(folder: &Path) -> [Vec<u8>; 2] {
    ["pattern.bin", "proposal.bin"].map(|name| fs::read(folder.join(name)).unwrap_or_default())
}

#[test]
fn every_sample_is_judged_as_listed() {
    for (folder, line) in listed() {
        let [pattern, proposal] = files(&folder);
        let finding = if proposal.starts_with(b"TAB") {
            unit::judge_tableau(&pattern, &proposal, &mut [0; TABLEAU_AREA])
        } else {
            unit::judge_model(&pattern, &proposal, &mut [0; MODEL_AREA])
        };
        assert_eq!(finding.to_string(), line, "{}", folder.display());
    }
}

/// A sample text, without one line feed at its end as the typist reads it, and its file, which has no bytes if it is
/// refused.
fn text_and_file(sample: &Path) -> [Vec<u8>; 2] {
    let [mut text, file] =
        ["txt", "bin"].map(|ending| fs::read(sample.with_extension(ending)).unwrap_or_default());
    text.pop_if(|last| *last == b'\n');
    [text, file]
}

#[test]
fn every_text_is_typed_as_listed() {
    let texts = listed_in("texts.txt");
    assert!(texts.len() > 50);
    for (sample, line) in texts {
        let ([text, file], name) = (text_and_file(&sample), sample.display());
        let mut destination = [7; PATTERN_LONGEST];
        assert_eq!(unit::type_pattern(&text, &mut destination).to_string(), line, "{name}");
        assert_eq!(line.starts_with("refused"), file.is_empty(), "{name}");
        let (written, beyond) = destination.split_at(file.len());
        assert_eq!(written, file, "{name}");
        assert!(beyond.iter().all(|&byte| byte == 7), "{name}");
    }
}

/// A model judged in an area of so many bytes: the line, and how many first bytes became zero; the others must stay.
fn judged_in(length: usize, [pattern, model]: &[Vec<u8>; 2]) -> (String, usize) {
    let mut area = vec![7; length];
    let finding = unit::judge_model(pattern, model, &mut area);
    let zeroed = area.iter().take_while(|&&byte| byte == 0).count();
    assert!(area[zeroed..].iter().all(|&byte| byte == 7));
    (finding.to_string(), zeroed)
}

#[test]
fn every_model_is_judged_in_the_area_that_its_pattern_wants() {
    let models = listed().into_iter().filter(|(folder, _)| !files(folder)[1].starts_with(b"TAB"));
    for (folder, line) in models {
        let (files, name) = (files(&folder), folder.display());
        let wanted = unit::model_area(&files[0]);
        let is_read = matches!(unit::read(&files[0]), Finding::Read { .. });
        assert_eq!(wanted > 0, is_read, "{name}");
        let zeroed = if line.starts_with("refused") { 0 } else { wanted };
        for length in [wanted, wanted + 1, wanted + 8, MODEL_AREA, MODEL_AREA + 9] {
            assert_eq!(judged_in(length, &files), (line.clone(), zeroed), "{name} in {length} bytes");
        }
        for length in [0, wanted.saturating_sub(8), wanted.saturating_sub(1)] {
            let line = if is_read { "refused 9 0" } else { &line };
            assert_eq!(judged_in(length, &files), (line.to_string(), 0), "{name} in {length} bytes");
        }
    }
}

#[test]
fn the_area_of_a_pattern_goes_by_its_node_entries() {
    let pattern = |entries: &[[u8; 4]]| {
        [&[b'P', b'A', b'T', 1, 0, entries.len() as u8], entries.as_flattened()].concat()
    };
    let wanted = |entries: &[[u8; 4]]| unit::model_area(&pattern(entries));
    assert_eq!(wanted(&[[1, 0, 0, 0]]), 8);
    assert_eq!(wanted(&[[8, 0, 255, 0], [8, 1, 255, 0], [6, 0, 0, 1]]), 8);
    assert_eq!(wanted(&[[1, 0, 0, 0], [8, 0, 255, 0], [1, 1, 0, 0], [1, 2, 0, 0]]), 24);
    assert_eq!(wanted(&[[1, 0, 0, 0], [8, 0, 255, 0], [12, 0, 0, 0]]), 16);
    let nots: Vec<[u8; 4]> = (0..254).map(|entry| [3, entry, 0, 0]).collect();
    assert_eq!(wanted(&[&[[1, 0, 0, 0]], &nots[..]].concat()), MODEL_AREA);
    assert_eq!(unit::model_area(b""), 0);
    assert_eq!(wanted(&[[1, 0, 0, 0], [1, 0, 0, 0]]), 0);
    assert_eq!(wanted(&[[1, 0, 0, 0], [8, 0, 255, 0]]), 0);
}

#[test]
fn a_pattern_is_read() {
    assert_eq!(unit::read(b"PAT\x01\x00\x01\x01\x1f\x00\x00"), Finding::Read { entries: 1 });
    assert_eq!(unit::read(b"PAT\x01\x00\x01\x02\x80\x00\x00"), Finding::Refused { number: 5, place: 0 });
    assert_eq!(unit::read(b""), Finding::Refused { number: 1, place: 0 });
}

/// The refusal's place is the name, not a record or an entry, and the area stays as it was.
#[test]
fn a_name_of_the_pattern_that_is_not_listed_is_refused() {
    let name_jump_property = [[2, 9, 0, 0], [9, 127, 255, 0], [1, 0, 0, 0]];
    let pattern = [b"PAT\x01\x00\x03", name_jump_property.as_flattened()].concat();
    let model = |names: &[[u8; 2]]| {
        let header = [b'D', b'A', b'T', 1, 0, 1, names.len() as u8, 0, 0];
        [&header[..], &[1, 0, 0, 0, 0, 0, 0, 0, 0, 0, 0, 0], names.as_flattened()].concat()
    };
    let mut area = [7; 16];
    for (names, missing) in [(&[][..], 9), (&[[127, 0]], 9), (&[[9, 0]], 127), (&[[9, 0], [126, 0]], 127)] {
        let finding = unit::judge_model(&pattern, &model(names), &mut area);
        assert_eq!(finding, Finding::Refused { number: 27, place: missing });
        assert_eq!(area, [7; 16]);
    }
    let finding = unit::judge_model(&pattern, &model(&[[127, 0], [9, 0]]), &mut area);
    assert_eq!(finding, Finding::Met { lowest: 0, number: 1 });
    assert_eq!(area, [0; 16]);
}

/// The refusal's place is the later record, and the area stays as it was.
#[test]
fn edges_that_do_not_rise_are_refused() {
    let pattern = b"PAT\x01\x00\x01\x01\x00\x00\x00";
    let rising = [[0, 0, 0], [0, 0, 1], [0, 1, 0], [1, 0, 0]];
    let mut area = [7; 8];
    for place in 1..rising.len() {
        for earlier in rising[..place].iter().copied() {
            let mut edges = rising;
            edges[place] = earlier;
            let finding = unit::judge_model(pattern, &model(&edges), &mut area);
            assert_eq!(finding, Finding::Refused { number: 28, place: place as u16 });
            assert_eq!(area, [7; 8]);
        }
    }
    let finding = unit::judge_model(pattern, &model(&rising), &mut area);
    assert_eq!(finding, Finding::Met { lowest: 0, number: 2 });
    assert_eq!(area, [0; 8]);
}

/// A model file of two nodes that have property 0, with these edges.
fn model(edges: &[[u8; 3]]) -> Vec<u8> {
    let header = [b'D', b'A', b'T', 1, 0, 2, 0, edges.len() as u8, 0];
    [&header[..], &[1; 24], edges.as_flattened()].concat()
}

/// The destination is long enough for the new file and not for the old one, and what is beyond stays.
#[test]
fn an_older_model_is_put_in_order() {
    let old = model(&[[1, 0, 0], [0, 1, 0], [1, 0, 0], [0, 0, 1]]);
    let new = model(&[[0, 0, 1], [0, 1, 0], [1, 0, 0]]);
    let mut destination = [7; MODEL_LONGEST];
    let length = new.len();
    assert_eq!(unit::order(&old, &mut destination[..length - 1]), Finding::Refused { number: 29, place: 0 });
    assert_eq!(destination, [7; MODEL_LONGEST]);
    let written = Finding::Written { length: length as u16 };
    assert_eq!(unit::order(&old, &mut destination[..length]), written);
    assert_eq!(destination[..length], new);
    assert_eq!(unit::order(&new, &mut destination), written);
    assert_eq!(destination[..length], new);
    assert!(destination[length..].iter().all(|&byte| byte == 7));
    assert_eq!(written.to_string(), format!("written {length}"));
}

#[test]
fn an_older_model_at_fault_is_refused() {
    let mut destination = [7; MODEL_LONGEST];
    let fault = model(&[[1, 0, 0], [0, 1, 0], [0, 8, 0]]);
    assert_eq!(unit::order(&fault, &mut destination), Finding::Refused { number: 14, place: 2 });
    assert_eq!(unit::order(b"", &mut destination), Finding::Refused { number: 10, place: 0 });
    assert_eq!(unit::order(b"", &mut []), Finding::Refused { number: 10, place: 0 });
    assert_eq!(destination, [7; MODEL_LONGEST]);
}
