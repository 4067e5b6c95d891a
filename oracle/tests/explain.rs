//! What is said of the bench readings, of refusals, and of files that are large.

mod common;

use common::*;

const NOTATION: &str = "\
Notation: pN property, nN name, !f not, (f&g) both, (f|g) either, <N>f after on axis N,
[x=Ny] same and [x#Ny] differ on channel N; paths: /N step, @N jump to name N, ?f test,
{x|y} fork, nothing the end of path; eN the entry of that number, which can't be typed
";

fn explain(pattern: &[u8], proposal: &[u8]) -> String {
    oracle::explain::explain(pattern, proposal).to_string()
}

/// What is said after the pattern and its notation.
fn judgement(pattern: &[u8], proposal: &[u8]) -> String {
    let text = explain(pattern, proposal);
    let (_, judgement) = text.split_once(NOTATION).expect("the notation follows the pattern");
    judgement.to_string()
}

/// The finding and what follows it.
fn finding(pattern: &[u8], proposal: &[u8]) -> String {
    let text = explain(pattern, proposal);
    text[text.find("Finding: ").unwrap()..].to_string()
}

#[test]
fn reading_a() {
    let expected = format!(
        "\
Pattern of 4 entries, the root is e3:
  e3 := (<0>p0&!<0>p0)
Typed: (<0>p0&!<0>p0)
Judging a model wants 32 bytes of working area: 4 node entries, 8 bytes each.
{NOTATION}
Tableau of 3 steps, start name n0 ([N] is line N of its branch; barred: no ends compare so):
  [0] n0 has (<0>p0&!<0>p0)
step 0: rule 2 (has both), P 0
  [1] n0 has <0>p0
  [2] n0 has !<0>p0
step 1: rule 1 (not), P 2
  [3] n0 lacks <0>p0
step 2: rule 21 (clash of signs), P 1, Q 3
  CLASH: [1] n0 has <0>p0 against [3] n0 lacks <0>p0

Rules used:
  rule 1 (not): P has/lacks !f: lacks/has f
  rule 2 (has both): P has (f&g): has f, then has g
  rule 21 (clash of signs): P and Q alike but for sign: clash

Finding: closed 3 1 0 4. Every branch ends in a clash: no model meets the pattern.
(The counts are steps, clashes, forks, and the most lines that a branch had at its clash.)
"
    );
    assert_eq!(explain(&pattern(&ENTRIES_A), &tableau(0, &STEPS_A)), expected);
}

#[test]
fn reading_d_has_a_left_and_a_right_side() {
    let text = judgement(&pattern(&ENTRIES_D), &tableau(0, &STEPS_D));
    let sides = "\
step 3: rule 3 (lacks both), P 5
left of step 3:
    [6] n0 lacks p0
  step 4: rule 21 (clash of signs), P 3, Q 6
    CLASH: [3] n0 has p0 against [6] n0 lacks p0
right of step 3:
    [6] n0 lacks p1
  step 5: rule 21 (clash of signs), P 1, Q 6
    CLASH: [1] n0 has p1 against [6] n0 lacks p1
";
    assert!(text.contains(sides), "{text}");
    assert!(text.contains("\nFinding: closed 6 2 1 7. "), "{text}");
}

#[test]
fn reading_g() {
    let expected = "
Model of 4 nodes, 0 names, 3 edges:
  node 0: values 0 0 0 0; axis 0 to 1; axis 1 to 2 3
  node 1: values 10 0 0 0
  node 2: values 10 0 0 0
  node 3: values 20 0 0 0
Where the node entries hold:
  e2 [/0=0/1]: node 0
  e3 [/0#0/1]: node 0
  e4 (the root) ([/0=0/1]&[/0#0/1]): node 0

Finding: met 0 1. The root holds at node 0 alone.
(The numbers are the lowest node where it holds, and at how many nodes it does.)
";
    assert_eq!(judgement(&pattern(&ENTRIES_G), &model_g()), expected);
}

/// Paths have no part in it, and entries that the root doesn't reach have.
#[test]
fn the_working_area_that_judging_a_model_wants() {
    let says = |entries: &[[u8; 4]], words: &str| {
        let wants = format!("\nJudging a model wants {words}, 8 bytes each.\nNotation: ");
        let text = explain(&pattern(entries), &model_g());
        assert!(text.contains(&wants), "{text}");
    };
    says(&ENTRIES_G, "24 bytes of working area: 3 node entries");
    says(&[[8, 0, 255, 0], [7, 0, 0, 255]], "8 bytes of working area: 1 node entry");
    says(&[[1, 0, 0, 0], [1, 1, 0, 0], [1, 2, 0, 0]], "24 bytes of working area: 3 node entries");
}

#[test]
fn a_model_with_everything() {
    let entries = [[2, 3, 0, 0], [9, 4, 255, 0], [1, 0, 0, 0], [5, 1, 2, 0], [3, 3, 0, 0], [4, 3, 4, 0]];
    let proposal = model(
        &[(5, [1, 2, 3, 4]), (1 << 31, [0, 0, 0, 65535])],
        &[[4, 1], [77, 1], [3, 0]],
        &[[0, 1, 0], [0, 1, 1], [0, 6, 1], [1, 7, 0]],
    );
    let expected = "
Model of 2 nodes, 3 names, 4 edges:
  node 0: p0 p2; values 1 2 3 4; named n3; axis 1 to 0 1; axis 6 to 1
  node 1: p31; values 0 0 0 65535; named n4 n77; axis 7 to 0
Where the node entries hold:
  e0 n3: node 0
  e2 p0: node 0
  e3 <1>p0: node 0
  e4 !<1>p0: node 1
  e5 (the root) (<1>p0&!<1>p0): nowhere

Finding: unmet. The root holds at no node of this model.
";
    assert_eq!(judgement(&pattern(&entries), &proposal), expected);
    let unreached = "  e0 := n3   (the root doesn't reach it)\n  e1 := @4   (the root doesn't reach it)\n";
    assert!(explain(&pattern(&entries), &proposal).contains(unreached));
}

#[test]
fn lines_of_every_form() {
    let entries = [
        [8, 2, 255, 0],
        [9, 9, 0, 0],
        [2, 9, 0, 0],
        [10, 2, 1, 0],
        [11, 3, 255, 0],
        [7, 1, 4, 0],
        [3, 5, 0, 0],
        [5, 3, 2, 0],
        [4, 6, 7, 0],
    ];
    let begin = [(2, 0, 0, 0), (1, 1, 0, 0), (7, 3, 0, 0), (5, 2, 0, 1)];
    let end = [(13, 4, 0, 0), (4, 6, 0, 0), (18, 9, 0, 3), (19, 9, 5, 1)];
    let expected = "
  [3] n0 lacks [{?n9@9/2|}#1/2]
step 2: rule 7 (comparison), P 3
  [4] barred (n0, {?n9@9/2|}) #1 (n0, /2)
step 3: rule 5 (has after), P 2, fresh name n1
  [5] axis 3 leads from n0 to n1
  [6] n1 has n9
step 4: rule 13 (barred fork), P 4
  [7] barred (n0, ?n9@9/2) #1 (n0, /2)
  [8] barred (n0, end) #1 (n0, /2)
step 5: rule 4 (name), P 6
  [9] n1 is n9
step 6: rule 18 (same data), P 9, channel 3
  [10] (n1, end) =3 (n9, end)
step 7: rule 19 (replace), P 9, Q 5, place 1
  [11] axis 3 leads from n0 to n9
";
    let text = judgement(&pattern(&entries), &tableau(0, &[begin, end].concat()));
    assert!(text.contains(expected), "{text}");
}

#[test]
fn refused_patterns() {
    assert_eq!(
        explain(b"PA", &[]),
        "Finding: refused 1 0: the pattern file has under 6 bytes or doesn't begin with PAT.\n\
         The file has 2 bytes and begins 50 41.\n"
    );
    assert_eq!(
        explain(&model_g(), &[]),
        "Finding: refused 1 0: the pattern file has under 6 bytes or doesn't begin with PAT.\n\
         The file has 66 bytes and begins 44 41 54 01 00. DAT begins a model file.\n"
    );
    assert_eq!(
        explain(&pattern(&[]), &[]),
        "Finding: refused 3 0: the number of entries is zero, or the pattern file's length isn't 6 + 4 for each.\n\
         The file says 0 entries, which makes 6 bytes; it has 6 bytes.\n"
    );
    assert_eq!(
        explain(&pattern(&[[1, 0, 0, 0], [5, 3, 200, 0]]), &[]),
        "Finding: refused 6 1, entry 1: a reference isn't an earlier entry of the wanted sort.\n\
         Entry 1 is 5,3,200,0. Kind 5 (after) uses x axis, y node entry.\n"
    );
    assert_eq!(
        explain(&pattern(&[[1, 0, 0, 0], [12, 0, 0, 1]]), &[]),
        "Finding: refused 5 1, entry 1: a field is out of range, or an unused one isn't zero.\n\
         Entry 1 is 12,0,0,1. Kind 12 (either) uses x node entry, y node entry.\n"
    );
    assert_eq!(
        explain(&pattern(&[[1, 0, 0, 0], [13, 0, 255, 0]]), &[]),
        "Finding: refused 4 1, entry 1: its kind isn't one of 1 to 12.\nEntry 1 is 13,0,255,0.\n"
    );
    assert_eq!(
        explain(&pattern(&[[1, 7, 0, 0], [1, 7, 0, 0]]), &[]),
        "Finding: refused 7 1, entry 1: it equals an earlier entry.\n\
         Entry 1 is 1,7,0,0. Kind 1 (property) uses x property. Entry 0 is the same.\n"
    );
}

#[test]
fn refused_models() {
    let a = pattern(&ENTRIES_A);
    assert_eq!(
        finding(&a, &[]),
        "Finding: refused 10 0: the model file has under 9 bytes or doesn't begin with DAT.\nThe file is empty.\n"
    );
    let mut short = model_g();
    short.pop();
    assert!(
        finding(&a, &short)
            .ends_with("\nThe file says 4 nodes, 0 names, 3 edges, which makes 66 bytes; it has 65 bytes.\n")
    );
    assert_eq!(
        finding(&a, &model(&[plain(0)], &[[1, 0], [2, 0], [1, 0]], &[])),
        "Finding: refused 13 2, name record 2: the name or the node is out of range, or an earlier record has the name.\n\
         The record is name 1, node 0; the last name is 127, the last node 0. Name record 0 has the name.\n"
    );
    assert_eq!(
        finding(&a, &model(&[plain(0)], &[[1, 0]], &[[0, 0, 0], [0, 8, 1]])),
        "Finding: refused 14 1, edge record 1: a field is out of range.\n\
         The record is from 0, axis 8, to 1; the last node is 0, the last axis 7.\n"
    );
}

#[test]
fn a_name_that_is_not_listed() {
    let removed = model(&[plain(0), plain(1)], &[[5, 1], [3, 0]], &[[0, 2, 1]]);
    let expected = "
Model of 2 nodes, 2 names, 1 edge:
  node 0: values 0 0 0 0; named n3; axis 2 to 1
  node 1: values 1 0 0 0; named n5

Finding: refused 27 6, name n6: the pattern uses it and the model doesn't list it (was its meter removed?).
Entry 0 of the pattern has it.
";
    let unreached = pattern(&[[2, 6, 0, 0], [2, 5, 0, 0]]);
    assert_eq!(judgement(&unreached, &removed), expected);
    assert!(explain(&unreached, &removed).contains("\n  e0 := n6   (the root doesn't reach it)\n"));

    let several = pattern(&[
        [9, 90, 255, 0],
        [9, 6, 0, 0],
        [2, 127, 0, 0],
        [2, 6, 0, 0],
        [2, 5, 0, 0],
        [6, 0, 1, 255],
        [4, 3, 5, 0],
    ]);
    assert_eq!(
        finding(&several, &removed),
        "Finding: refused 27 6, name n6: the pattern uses it and the model doesn't list it (was its meter removed?).\n\
         Entries 1 3 of the pattern have it.\n\
         Not listed either: n90 n127.\n"
    );
}

#[test]
fn edges_that_do_not_rise() {
    let a = pattern(&ENTRIES_A);
    let said = |edges: &[[u8; 3]]| finding(&a, &model(&[plain(0); 3], &[[1, 0]], edges));
    let meaning =
        "it doesn't come after the record before it (edges rise by from, then axis, then to, each once)";
    let tool = "`riser order` writes the same model with its edges in order.";
    assert_eq!(
        said(&[[0, 0, 0], [0, 0, 1], [0, 2, 1], [0, 2, 1], [2, 0, 0]]),
        format!(
            "Finding: refused 28 3, edge record 3: {meaning}.\n\
             Edge record 3 is from 0, axis 2, to 1; edge record 2 is from 0, axis 2, to 1.\n\
             Edge record 3 repeats record 2: leave it out.\n{tool}\n"
        )
    );
    assert_eq!(
        said(&[[0, 2, 1], [0, 1, 2]]),
        format!(
            "Finding: refused 28 1, edge record 1: {meaning}.\n\
             Edge record 1 is from 0, axis 1, to 2; edge record 0 is from 0, axis 2, to 1.\n\
             Edge record 1 comes before record 0 in that order.\n{tool}\n"
        )
    );
    let fault = |edges: &[[u8; 3]]| said(edges).lines().nth(2).map(str::to_owned).expect("three lines");
    assert_eq!(
        fault(&[[0, 0, 0], [1, 0, 0], [1, 0, 2], [2, 0, 0], [1, 0, 1]]),
        "Edge record 4 comes before record 3 in that order, and belongs before record 2."
    );
    assert_eq!(
        fault(&[[0, 0, 0], [1, 0, 0], [1, 0, 2], [2, 0, 0], [1, 0, 0]]),
        "Edge record 4 repeats record 1: leave it out."
    );
    let later = said(&[[0, 0, 0], [0, 0, 0], [1, 0, 0], [0, 8, 0]]);
    let behind = "\nBehind it stands another fault: refused 14 3, edge record 3: a field is out of range.\n";
    assert!(later.ends_with(behind), "{later}");
}

#[test]
fn refused_tableau_files() {
    let names_4 = pattern(&[[2, 4, 0, 0]]);
    assert_eq!(
        finding(&names_4, b"TAB"),
        "Finding: refused 15 0: the tableau file has under 8 bytes or doesn't begin with TAB.\n\
         The file has 3 bytes and begins 54 41 42.\n"
    );
    assert_eq!(
        finding(&names_4, &tableau(4, &[(4, 0, 0, 0)])),
        "Finding: refused 18 0: the start name is over 127 or used in the pattern.\n\
         The start name is 4, and entry 0 has it.\n"
    );
}

#[test]
fn refused_steps_stand_after_the_tree_so_far() {
    let a = pattern(&ENTRIES_A);
    let text = judgement(&a, &tableau(0, &[(2, 0, 0, 0), (21, 1, 2, 0), (1, 2, 0, 0)]));
    let expected = "
  [0] n0 has (<0>p0&!<0>p0)
step 0: rule 2 (has both), P 0
  [1] n0 has <0>p0
  [2] n0 has !<0>p0

Rules used:
  rule 2 (has both): P has (f&g): has f, then has g

Finding: refused 21 1, step 1: the lines or the argument don't fit the rule.
The step is rule 21, P 1, Q 2, argument 0.
P is [1] n0 has <0>p0.
Q is [2] n0 has !<0>p0.
Rule 21 (clash of signs) says: P and Q alike but for sign: clash.
";
    assert!(text.ends_with(expected), "{text}");
    assert_eq!(
        finding(&a, &tableau(0, &[(200, 1, 2, 3)])),
        "Finding: refused 19 0, step 0: its rule isn't one of 1 to 25.\nThe step is rule 200, P 1, Q 2, argument 3.\n"
    );
    assert_eq!(
        finding(&a, &tableau(0, &[(2, 0, 0, 0), (5, 1, 0, 0)])),
        "Finding: refused 22 1, step 1: the name isn't fresh.\nThe step is rule 5, P 1, Q 0, argument 0.\n\
         n0 stands on [0] n0 has (<0>p0&!<0>p0).\n"
    );
    assert_eq!(
        finding(&a, &tableau(0, &STEPS_A[..2])),
        "Finding: refused 26 2: the steps are at an end and a branch is still open.\n\
         The branch has 4 lines, numbered from 0. Right sides waiting: 0. No clash ends the branch.\n"
    );
}

#[test]
fn a_thousand_nested_forks_stay_readable() {
    let entries = [[1, 0, 0, 0], [4, 0, 0, 0], [3, 1, 0, 0], [4, 0, 2, 0]];
    let nested = [(3, 3, 0, 0), (21, 1, 4, 0)].repeat(1000);
    let steps = [&[(2, 0, 0, 0), (1, 2, 0, 0)], &nested[..], &[(21, 1, 4, 0)]].concat();
    let text = judgement(&pattern(&entries), &tableau(0, &steps));
    assert!(text.contains("\nFinding: closed 2003 1001 1000 1004. "));
    assert!(text.contains(" (depth 1000) step 2002: rule 21 (clash of signs), P 1, Q 4\n"));
    assert!(text.lines().all(|line| line.len() < 120));
}

#[test]
fn a_shared_formula_is_written_once() {
    let mut entries = vec![[1, 0, 0, 0]];
    entries.extend((0..254).map(|below| [4, below, below, 0]));
    let text = explain(&pattern(&entries), &model_g());
    assert!(text.contains("  e254 := (e253&e253)\n"));
    assert!(text.contains("  e254 (the root) (e253&e253): nowhere\n"));
    assert!(text.contains("\nToo long to type: its text has over 1,024 bytes.\n"));
    assert!(text.len() < 20_000);
}

#[test]
fn a_long_formula_is_written_in_pieces() {
    let mut entries = vec![[1, 0, 0, 0]];
    entries.extend((0..254).map(|below| [3, below, 0, 0]));
    let text = explain(&pattern(&entries), &model_g());
    assert!(text.contains(&format!("\n  e29 := {}p0\n  e57 := {}e29\n", "!".repeat(29), "!".repeat(28))));
    assert!(text.lines().all(|line| line.len() < 120 || line.starts_with("Typed: !!")));

    let mut entries = vec![[8, 1, 255, 0]];
    entries.extend((0..29).map(|below| [8, 1, below, 0]));
    entries.push([6, 0, 29, 255]);
    let text = explain(&pattern(&entries), &model_g());
    let (sixteen, fourteen) = ("/1".repeat(16), "/1".repeat(14));
    assert!(text.contains(&format!("\n  e15 := {sixteen}\n  e29 := {fourteen} e15\n")), "{text}");
    assert!(text.contains("\n  e30 := [e29=0]\n"), "{text}");
    entries[30] = [7, 2, 255, 29];
    let text = explain(&pattern(&entries), &model_g());
    assert!(text.contains("\n  e30 := [#2 e29]\n"), "{text}");
}

/// Seeded noise (xorshift).
fn next(state: &mut u32) -> usize {
    *state ^= *state << 13;
    *state ^= *state >> 17;
    *state ^= *state << 5;
    *state as usize
}

#[test]
fn the_finding_explained_is_the_finding_judged() {
    let names = pattern(&[[2, 6, 0, 0], [9, 7, 255, 0], [6, 0, 1, 255], [3, 2, 0, 0]]);
    let patterns = [pattern(&ENTRIES_A), pattern(&ENTRIES_D), pattern(&ENTRIES_H), names];
    let lists = model(&[plain(0), plain(1)], &[[7, 0], [6, 1]], &[[0, 1, 1], [0, 3, 0], [1, 0, 1]]);
    let proposals = [tableau(0, &STEPS_A), tableau(0, &STEPS_D), model_g(), lists];
    let mut noise = 1;
    for round in 0..8000 {
        let mut files = [patterns[round % 4].clone(), proposals[round / 4 % 4].clone()];
        let damaged = &mut files[round / 16 % 2];
        let at = next(&mut noise) % damaged.len();
        match next(&mut noise) % 3 {
            0 => damaged[at] = next(&mut noise) as u8,
            1 => damaged[at] ^= 1 << (next(&mut noise) % 8),
            _ => damaged.truncate(at),
        }
        let judged = if files[1].starts_with(b"TAB") { tableau_line } else { model_line };
        let expected = format!("Finding: {}", judged(&files[0], &files[1]));
        let said = finding(&files[0], &files[1]);
        let rest = said.strip_prefix(&expected);
        assert!(rest.is_some_and(|rest| rest.starts_with([',', ':', '.'])), "{expected}\n{said}\n{files:?}");
    }
}
