//! `riser judge`: the finding, what it says, and the exit status.

use crate::common::directory::Directory;
use crate::common::tool::{check_failure, check_said, check_usage, printed, run, run_fed};
use crate::files::{ENTRIES_A, ENTRIES_G, STEPS_A, model, model_g, pattern, plain, tableau};
use std::collections::HashMap;
use std::ffi::OsStr;
use std::fs;
use std::path::Path;

const NUMBERS: &str = "(The numbers are the lowest node where it holds, and at how many nodes it does.)";
const COUNTS: &str =
    "(The counts are steps, clashes, forks, and the most lines that a branch had at its clash.)";

/// Judges a typed pattern and a proposal.
fn check_typed(text: &str, proposal: &Path, status: i32, said: &str) {
    check_said(
        &run(&[OsStr::new("judge"), OsStr::new("-e"), OsStr::new(text), proposal.as_ref()]),
        status,
        said,
    );
}

#[test]
fn says_where_a_typed_pattern_is_met() {
    let directory = Directory::new("judge-met");
    let block = directory.file("block.bin", &model_g());
    let met = |numbers: &str, places: &str| format!("met {numbers}\nThe root holds at {places}.\n{NUMBERS}");
    check_typed("[/0#0/1]", &block, 0, &met("0 1", "node 0 alone"));
    check_typed("[=0]", &block, 0, &met("0 4", "every node, 4 in number"));
    check_typed("![/1=0]", &block, 0, &met("0 4", "every node, 4 in number"));
    check_typed("!<1>[=0]", &block, 0, &met("1 3", "nodes 1 2 3, 3 in number"));
    check_typed("p0", &block, 1, "unmet\nThe root holds at no node of this model.");
}

#[test]
fn says_that_a_tableau_is_closed() {
    let directory = Directory::new("judge-closed");
    let [pattern, proposal] = [
        directory.file("pattern.bin", &pattern(&ENTRIES_A)),
        directory.file("proposal.bin", &tableau(0, &STEPS_A)),
    ];
    let closed =
        format!("closed 3 1 0 4\nEvery branch ends in a clash: no model meets the pattern.\n{COUNTS}");
    check_said(&run(&[OsStr::new("judge"), pattern.as_ref(), proposal.as_ref()]), 0, &closed);
    check_typed("(<0>p0&!<0>p0)", &proposal, 0, &closed);
}

#[test]
fn a_refusal_is_a_finding_with_a_status_of_its_own() {
    let directory = Directory::new("judge-refused");
    let block = directory.file("block.bin", &model(&[plain(0)], &[], &[[0, 8, 0]]));
    let said = "refused 14 0\nEdge record 0: a field is out of range.\n\
                The record is from 0, axis 8, to 0; the last node is 0, the last axis 7.";
    check_typed("p0", &block, 2, said);
    let good = directory.file("good.bin", &model_g());
    let said = "refused 30 4\nByte 4: the text ends there, which no typed pattern does.\n\
                Wanted there: p n ! ( < or [.\n  (p0&\n      ^";
    check_typed("(p0&", &good, 2, said);
    let said = "refused 27 5\nName n5: the pattern uses it and the model doesn't list it (was its meter removed?).\n\
                Entry 0 of the pattern has it.";
    check_typed("n5", &good, 2, said);
    check_typed(
        "p0",
        &directory.file("empty.bin", b""),
        2,
        "refused 10 0\nThe model file has under 9 bytes or doesn't begin with DAT.\nThe file is empty.",
    );
}

/// Its first line is the bench program's, and the status goes with it.
#[test]
fn every_sample_is_judged_as_listed() {
    let readings = Path::new(env!("CARGO_MANIFEST_DIR")).join("../crates/readings");
    let read = |file: &str| fs::read_to_string(readings.join(file)).expect(file);
    let (names, stdout) = (read("data/samples.txt"), read("stdout"));
    let lines: HashMap<&str, &str> = stdout.lines().filter_map(|line| line.split_once(": ")).collect();
    let (mut judged, mut missing) = (0, 0);
    for name in names.lines() {
        let files = ["pattern.bin", "proposal.bin"].map(|file| readings.join("data").join(name).join(file));
        if !files.iter().all(|file| file.exists()) {
            missing += 1;
            continue;
        }
        let output = run(&[OsStr::new("judge"), files[0].as_ref(), files[1].as_ref()]);
        let (said, finding) = (printed(&output.stdout), lines[name]);
        assert_eq!(said.lines().next(), Some(finding), "{name}");
        let status = match finding.split(' ').next() {
            Some("met" | "closed") => 0,
            Some("unmet") => 1,
            _ => 2,
        };
        assert_eq!((output.status.code(), printed(&output.stderr)), (Some(status), String::new()), "{name}");
        judged += 1;
    }
    assert!(judged > 180 && missing < 5, "{judged} {missing}");
}

#[test]
fn takes_the_pattern_from_a_file_or_standard_input() {
    let directory = Directory::new("judge-from");
    let block = directory.file("block.bin", &model_g());
    let text = "([/0=0/1]&[/0#0/1])\n";
    let [judge, from, input] = ["judge", "--text", "-"].map(OsStr::new);
    let file = directory.file("pattern.txt", text.as_bytes());
    let binary = directory.file("pattern.bin", &pattern(&ENTRIES_G));
    let said = format!("met 0 1\nThe root holds at node 0 alone.\n{NUMBERS}");
    check_said(&run(&[judge, binary.as_ref(), block.as_ref()]), 0, &said);
    check_said(&run(&[judge, from, file.as_ref(), block.as_ref()]), 0, &said);
    check_said(&run(&[judge, block.as_ref(), from, file.as_ref()]), 0, &said);
    check_said(&run_fed(&[judge, from, input, block.as_ref()], text.as_bytes()), 0, &said);
    let joined = format!("--text={}", file.display());
    check_said(&run(&[judge, OsStr::new(&joined), block.as_ref()]), 0, &said);
}

/// Behind `--` a word is a file, whatever it begins with.
#[test]
fn a_file_may_have_any_name() {
    let directory = Directory::new("judge-names");
    directory.file("-e", &pattern(&ENTRIES_G));
    directory.file("--help", &model_g());
    let output = std::process::Command::new(crate::common::tool::RISER)
        .args(["judge", "--", "-e", "--help"])
        .current_dir(&directory.0)
        .output()
        .expect("the tool runs");
    assert!(printed(&output.stdout).starts_with("met 0 1\n"), "{output:?}");
    assert_eq!(output.status.code(), Some(0));
}

/// What is refused of a typed pattern comes before any file is looked for.
#[test]
fn a_refused_text_comes_before_a_missing_file() {
    let output = run(&["judge", "-e", "(p0", "missing.bin"]);
    assert!(printed(&output.stdout).starts_with("refused 30 3\n"), "{output:?}");
    assert_eq!(output.status.code(), Some(2));
}

#[test]
fn a_text_file_in_the_place_of_a_pattern_file_is_seen() {
    let directory = Directory::new("judge-text");
    let block = directory.file("block.bin", &model_g());
    for (text, is_text) in [(&b"(p0&p1)\n"[..], true), (b"p0", true), (b"p0\n\n", false), (b"no", false)] {
        let file = directory.file("pattern.txt", text);
        let said = printed(&run(&[OsStr::new("judge"), file.as_ref(), block.as_ref()]).stdout);
        assert_eq!(said.ends_with(" It is a typed pattern, which --text takes.\n"), is_text, "{said}");
    }
}

/// Who forgets `-e` is reminded of it, unless there is a file of that name.
#[test]
fn a_text_in_the_place_of_a_file_is_seen() {
    let directory = Directory::new("judge-untold");
    let block = directory.file("block.bin", &model_g());
    let judge = |pattern: &OsStr| run(&[OsStr::new("judge"), pattern, block.as_ref()]);
    let unread = "can't be read: No such file or directory (os error 2)";
    let reminded = format!("riser judge: (p0&p1): {unread}\nA typed pattern stands behind -e.");
    check_failure(&judge(OsStr::new("(p0&p1)")), 3, &reminded);
    check_failure(&judge(OsStr::new("block")), 3, &format!("riser judge: block: {unread}"));
    check_said(
        &judge(directory.file("p0", b"").as_ref()),
        2,
        "refused 1 0\nThe pattern file has under 6 bytes or doesn't begin with PAT.\nThe file is empty.",
    );
}

#[test]
fn bad_arguments_give_the_usage() {
    let usage = "riser judge (PATTERN | -e TEXT | --text FILE) PROPOSAL";
    for (words, why) in [
        (&["judge"][..], "no pattern is given"),
        (&["judge", "a"], "no proposal is given"),
        (&["judge", "-e", "p0"], "no proposal is given"),
        (&["judge", "a", "b", "c"], "there is a file too many: c"),
        (&["judge", "-e", "p0", "a", "b"], "there is a file too many: b"),
        (&["judge", "-e"], "-e wants a text behind it"),
        (&["judge", "a", "--text"], "--text wants a file behind it"),
        (&["judge", "-e", "p0", "-e", "p1", "a"], "-e is given twice"),
        (&["judge", "-e", "p0", "--text", "a", "b"], "the pattern is typed twice, by -e and by --text"),
        (&["judge", "-o", "a", "b", "c"], "there is no option '-o'"),
    ] {
        check_usage(&run(words), &format!("riser judge: {why}"), usage);
    }
}
