//! Judging a tableau: refusals 9 and 15 to 26, their places and order, the limits, and the working area.

mod common;

use common::*;
use oracle::tableau::judge;

/// p and not (p and p): closes, and its line 3 can fork again and again.
const FORKING: [[u8; 4]; 4] = [[1, 0, 0, 0], [4, 0, 0, 0], [3, 1, 0, 0], [4, 0, 2, 0]];
/// Lines 1 to 3 of its branch: has p, has not (p and p), lacks (p and p).
const FORKING_BEGIN: [Step; 2] = [(2, 0, 0, 0), (1, 2, 0, 0)];
const FORK: Step = (3, 3, 0, 0);

/// p0 with an unreached jump to name 4 and an unreached name 3.
fn names_used() -> Vec<u8> {
    pattern(&[[2, 3, 0, 0], [9, 4, 255, 0], [1, 0, 0, 0], [5, 1, 2, 0]])
}

fn repeated(begin: &[Step], step: Step, times: usize, end: &[Step]) -> Vec<Step> {
    [begin, &vec![step; times], end].concat()
}

#[test]
fn header() {
    let good = tableau(0, &STEPS_A);
    let line = |bytes: &[u8]| tableau_line(&pattern(&ENTRIES_A), bytes);
    let replaced = |offset: usize, value: u8| {
        let mut bytes = good.clone();
        bytes[offset] = value;
        line(&bytes)
    };
    assert_eq!(line(&[]), "refused 15 0");
    assert_eq!(line(b"TAB\x02\x00\x00\x00"), "refused 15 0", "seven bytes");
    assert_eq!(replaced(1, b'a'), "refused 15 0");
    assert_eq!(replaced(3, 2), "refused 16 0");
    assert_eq!(replaced(4, 1), "refused 16 0");
    assert_eq!(replaced(6, 2), "refused 17 0");
    assert_eq!(replaced(7, 1), "refused 17 0");
    assert_eq!(line(&tableau(0, &[])), "refused 17 0");
    assert_eq!(line(&good[..good.len() - 1]), "refused 17 0");
    assert_eq!(line(&tableau(200, &[])), "refused 17 0", "17 before 18");
    assert_eq!(line(&tableau(128, &STEPS_A)), "refused 18 0");
    assert_eq!(line(&tableau(127, &STEPS_A)), "closed 3 1 0 4");
}

#[test]
fn start_name_used_in_the_pattern() {
    assert_eq!(tableau_line(&names_used(), &tableau(3, &[(0, 0, 0, 0)])), "refused 18 0");
    assert_eq!(tableau_line(&names_used(), &tableau(4, &[(0, 0, 0, 0)])), "refused 18 0");
    assert_eq!(tableau_line(&names_used(), &tableau(5, &[(0, 0, 0, 0)])), "refused 19 0");
}

#[test]
fn steps() {
    let cases: &[(Step, &str)] = &[
        ((0, 9, 9, 9), "refused 19 1"),
        ((26, 0, 0, 0), "refused 19 1"),
        ((27, 0, 0, 0), "refused 19 1"),
        ((255, 0, 0, 0), "refused 19 1"),
        ((1, 3, 0, 0), "refused 20 1"),
        ((21, 0, 3, 0), "refused 20 1"),
        ((6, 2, 65535, 0), "refused 20 1"),
        ((1, 0, 1, 0), "refused 20 1"),
        ((1, 0, 0, 1), "refused 20 1"),
        ((5, 0, 1, 7), "refused 20 1"),
        ((6, 0, 1, 1), "refused 20 1"),
        ((18, 0, 1, 0), "refused 20 1"),
        ((21, 0, 0, 1), "refused 20 1"),
        ((22, 0, 0, 1), "refused 20 1"),
        ((23, 0, 1, 0), "refused 20 1"),
        ((23, 0, 0, 1), "refused 20 1"),
        ((1, 0, 0, 0), "refused 21 1"),
        ((5, 1, 0, 7), "refused 21 1"),
        ((5, 1, 0, 6), "refused 21 1"),
        ((5, 0, 0, 128), "refused 21 1"),
        ((5, 0, 0, 255), "refused 21 1"),
        ((21, 1, 1, 0), "refused 21 1"),
        ((5, 0, 0, 3), "refused 22 1"),
        ((5, 0, 0, 4), "refused 22 1"),
        ((5, 0, 0, 5), "refused 22 1"),
        ((5, 0, 0, 6), "refused 22 1"),
        ((5, 0, 0, 127), "refused 26 2"),
    ];
    assert_second_steps(cases);
}

#[test]
fn steps_of_rules_24_and_25() {
    let cases: &[(Step, &str)] = &[
        ((24, 3, 0, 0), "refused 20 1"),
        ((24, 0, 1, 0), "refused 20 1"),
        ((24, 0, 0, 1), "refused 20 1"),
        ((25, 3, 0, 0), "refused 20 1"),
        ((25, 0, 1, 0), "refused 20 1"),
        ((25, 0, 0, 1), "refused 20 1"),
        ((24, 0, 0, 0), "refused 21 1"),
        ((25, 1, 0, 0), "refused 21 1"),
    ];
    assert_second_steps(cases);
}

/// Each step meets the lines 5 has after(1, p0), axis 1 from 5 to 6, 6 has p0.
fn assert_second_steps(cases: &[(Step, &str)]) {
    for &(step, expected) in cases {
        let proposal = tableau(5, &[(5, 0, 0, 6), step]);
        assert_eq!(tableau_line(&names_used(), &proposal), expected, "{step:?}");
    }
}

#[test]
fn after_the_last_clash_nothing_else_is_looked_at() {
    let steps = [STEPS_A[0], STEPS_A[1], STEPS_A[2], (0, 9, 9, 9)];
    assert_eq!(tableau_line(&pattern(&ENTRIES_A), &tableau(0, &steps)), "refused 25 3");
}

#[test]
fn lines_are_numbered_along_the_branch() {
    let shared = repeated(&FORKING_BEGIN, FORK, 1, &[]);
    let line = |end: &[Step]| tableau_line(&pattern(&FORKING), &tableau(0, &[&shared[..], end].concat()));
    assert_eq!(line(&[(21, 1, 4, 0), (21, 1, 4, 0)]), "closed 5 2 1 5");
    assert_eq!(line(&[(3, 3, 0, 0), (21, 1, 5, 0), (21, 1, 5, 0), (21, 1, 5, 0)]), "refused 20 6");
    assert_eq!(line(&[(3, 3, 0, 0), (21, 1, 5, 0), (21, 1, 5, 0), (21, 1, 4, 0)]), "closed 7 3 2 6");
}

#[test]
fn at_most_1024_lines() {
    let not_p = pattern(&[[1, 0, 0, 0], [3, 0, 0, 0]]);
    let ones = |times| tableau_line(&not_p, &tableau(0, &vec![(1, 0, 0, 0); times]));
    assert_eq!(ones(1023), "refused 26 1023");
    assert_eq!(ones(1024), "refused 23 1023");

    let forking = |steps: &[Step]| tableau_line(&pattern(&FORKING), &tableau(0, steps));
    let twos = vec![(2, 0, 0, 0); 512];
    assert_eq!(forking(&twos[..511]), "refused 26 511");
    assert_eq!(forking(&twos), "refused 23 511");

    let full = repeated(&FORKING_BEGIN, (1, 2, 0, 0), 1019, &[]);
    let then = |end: &[Step]| forking(&[&full[..], end].concat());
    assert_eq!(then(&[FORK, (21, 1, 1023, 0), (21, 1, 1023, 0)]), "closed 1024 2 1 1024");
    assert_eq!(then(&[FORK, FORK]), "refused 23 1022", "a full branch forks no more");
}

#[test]
fn a_name_not_fresh_comes_before_too_many_lines() {
    let entries = [[1, 0, 0, 0], [5, 0, 0, 0], [3, 1, 0, 0], [3, 2, 0, 0]];
    let steps = |end: Step| {
        let begin = [(1, 0, 0, 0), (1, 1, 0, 0)];
        tableau_line(&pattern(&entries), &tableau(0, &repeated(&begin, (1, 1, 0, 0), 1020, &[end])))
    };
    assert_eq!(steps((5, 2, 0, 0)), "refused 22 1022");
    assert_eq!(steps((5, 2, 0, 1)), "refused 23 1022");
}

#[test]
fn at_most_64_right_sides_wait() {
    let forking = |steps: &[Step]| tableau_line(&pattern(&FORKING), &tableau(0, steps));
    assert_eq!(forking(&repeated(&FORKING_BEGIN, FORK, 64, &[])), "refused 26 66");
    assert_eq!(forking(&repeated(&FORKING_BEGIN, FORK, 65, &[])), "refused 24 66");

    let clash = (21, 1, 4, 0);
    let nested = repeated(&FORKING_BEGIN, FORK, 64, &[clash; 65]);
    assert_eq!(forking(&nested), "closed 131 65 64 68");

    let one_after_the_other = [FORK, clash].repeat(500);
    let to_the_right = repeated(&FORKING_BEGIN, clash, 1, &[]);
    let steps = [&FORKING_BEGIN[..], &one_after_the_other, &to_the_right[2..]].concat();
    assert_eq!(forking(&steps), "closed 1003 501 500 504");
}

#[test]
fn too_many_lines_come_before_too_many_waiting() {
    let waiting = repeated(&FORKING_BEGIN, FORK, 64, &[]);
    let filled = repeated(&waiting, (1, 2, 0, 0), 1024 - 68, &[FORK]);
    assert_eq!(tableau_line(&pattern(&FORKING), &tableau(0, &filled)), "refused 23 1022");
}

/// Either of p and q, and neither: has not p, has not q, lacks p, lacks q are lines 3 to 6.
const EITHER: [[u8; 4]; 7] =
    [[1, 0, 0, 0], [1, 1, 0, 0], [12, 0, 1, 0], [3, 0, 0, 0], [3, 1, 0, 0], [4, 3, 4, 0], [4, 2, 5, 0]];
const EITHER_BEGIN: [Step; 4] = [(2, 0, 0, 0), (2, 2, 0, 0), (1, 3, 0, 0), (1, 4, 0, 0)];
const RULE_24: Step = (24, 1, 0, 0);

#[test]
fn rule_24_forks_with_the_first_part_on_the_left() {
    let then = |end: &[Step]| {
        tableau_line(&pattern(&EITHER), &tableau(0, &[&EITHER_BEGIN[..], &[RULE_24], end].concat()))
    };
    assert_eq!(then(&[(21, 7, 5, 0), (21, 7, 6, 0)]), "closed 7 2 1 8");
    assert_eq!(then(&[(21, 7, 6, 0), (21, 7, 5, 0)]), "refused 21 5", "the sides exchanged");
    assert_eq!(then(&[(21, 7, 5, 0)]), "refused 26 6", "the right side is still to come");
    assert_eq!(then(&[(21, 7, 5, 0), (21, 7, 5, 0)]), "refused 21 6");
}

#[test]
fn rule_24_keeps_the_limits_of_a_fork() {
    let line = |steps: &[Step]| tableau_line(&pattern(&EITHER), &tableau(0, steps));
    let clashes = repeated(&[], (21, 7, 5, 0), 64, &[(21, 7, 6, 0)]);
    assert_eq!(line(&repeated(&EITHER_BEGIN, RULE_24, 64, &clashes)), "closed 133 65 64 71");
    assert_eq!(line(&repeated(&EITHER_BEGIN, RULE_24, 65, &[])), "refused 24 68");
    let full = repeated(&EITHER_BEGIN, (1, 3, 0, 0), 1023 - 7, &[RULE_24]);
    assert_eq!(line(&full), "refused 26 1021", "a side has one line more");
    assert_eq!(line(&[&full[..], &[RULE_24]].concat()), "refused 23 1021");
}

#[test]
fn rule_25_adds_two_lines() {
    let denied = [[1, 0, 0, 0], [1, 1, 0, 0], [12, 0, 1, 0], [3, 2, 0, 0], [4, 1, 3, 0]];
    let line = |steps: &[Step]| tableau_line(&pattern(&denied), &tableau(0, steps));
    let begin = [(2, 0, 0, 0), (1, 2, 0, 0)];
    assert_eq!(line(&[begin[0], begin[1], (25, 3, 0, 0), (21, 1, 5, 0)]), "closed 4 1 0 6");
    assert_eq!(line(&[begin[0], begin[1], (25, 3, 0, 0), (21, 1, 4, 0)]), "refused 21 3", "the first part");
    assert_eq!(line(&repeated(&begin, (25, 3, 0, 0), 510, &[])), "refused 26 512");
    assert_eq!(line(&repeated(&begin, (25, 3, 0, 0), 511, &[])), "refused 23 512");
}

#[test]
fn as_many_steps_as_there_can_be() {
    // Each round forks ten times to the left and ends ten branches; the first fork's right side goes on.
    let clash = (21, 1, 17, 0);
    let round = repeated(&[], FORK, 10, &[clash; 10]);
    let begin = repeated(&FORKING_BEGIN, (1, 2, 0, 0), 13, &[]);
    let steps = [&begin[..], &round.repeat(204), &[clash]].concat();
    assert_eq!(steps.len(), 4096);
    assert_eq!(tableau_line(&pattern(&FORKING), &tableau(0, &steps)), "closed 4096 2041 2040 230");

    let one_more = vec![(0, 0, 0, 0); 4097];
    assert_eq!(tableau_line(&pattern(&FORKING), &tableau(0, &one_more)), "refused 17 0");
}

#[test]
fn order_and_area() {
    let (a, closed) = (pattern(&ENTRIES_A), tableau(0, &STEPS_A));
    let check = |pattern: &[u8], tableau: &[u8], length, line, zeroed| {
        check_area(judge, (pattern, tableau), length, line, zeroed);
    };
    check(&pattern(&[]), &[], 0, "refused 3 0", 0);
    check(&a, &[], 8191, "refused 9 0", 0);
    check(&a, &closed, 8191, "refused 9 0", 0);
    check(&a, &[], 8192, "refused 15 0", 0);
    check(&a, &tableau(0, &[]), 8193, "refused 17 0", 0);
    check(&a, &tableau(128, &STEPS_A), 9000, "refused 18 0", 0);
    check(&a, &tableau(0, &[(0, 0, 0, 0)]), 8192, "refused 19 0", 8192);
    check(&a, &tableau(0, &STEPS_A[..1]), 9000, "refused 26 1", 8192);
    check(&a, &closed, 8192, "closed 3 1 0 4", 8192);
    check(&a, &closed, 8193, "closed 3 1 0 4", 8192);
}
