//! The bench readings A to J of document 01.

mod common;

use common::*;

#[test]
fn a_closes() {
    assert_eq!(tableau_line(&pattern(&ENTRIES_A), &tableau(0, &STEPS_A)), "closed 3 1 0 4");
}

#[test]
fn b_without_its_last_step_is_still_open() {
    assert_eq!(tableau_line(&pattern(&ENTRIES_A), &tableau(0, &STEPS_A[..2])), "refused 26 2");
}

#[test]
fn c_with_its_last_step_twice_is_already_closed() {
    let steps = [STEPS_A[0], STEPS_A[1], STEPS_A[2], STEPS_A[2]];
    assert_eq!(tableau_line(&pattern(&ENTRIES_A), &tableau(0, &steps)), "refused 25 3");
}

#[test]
fn d_closes_on_both_sides_of_its_fork() {
    assert_eq!(tableau_line(&pattern(&ENTRIES_D), &tableau(0, &STEPS_D)), "closed 6 2 1 7");
}

#[test]
fn e_has_no_entries() {
    assert_eq!(read_line(&pattern(&[])), "refused 3 0");
}

#[test]
fn f_refers_to_itself() {
    assert_eq!(read_line(&pattern(&[[3, 0, 0, 0]])), "refused 6 0");
}

#[test]
fn g_is_both_same_and_different() {
    assert_eq!(model_line(&pattern(&ENTRIES_G), &model_g()), "met 0 1");
}

#[test]
fn h_is_neither_where_the_paths_lead_nowhere() {
    assert_eq!(model_line(&pattern(&ENTRIES_H), &model(&[plain(0)], &[], &[])), "met 0 1");
}

#[test]
fn i_differs_from_itself_nowhere() {
    let root = pattern(&[[7, 0, 255, 255]]);
    for proposal in [model_g(), model(&[plain(7)], &[[0, 0]], &[[0, 0, 0]]), model(&[plain(1); 64], &[], &[])]
    {
        assert_eq!(model_line(&root, &proposal), "unmet");
    }
}

#[test]
fn j_names_end_at_127() {
    assert_eq!(read_line(&pattern(&[[2, 128, 0, 0]])), "refused 5 0");
    let name_127 = pattern(&[[2, 127, 0, 0]]);
    assert_eq!(read_line(&name_127), "read 1");
    assert_eq!(model_line(&name_127, &model(&[plain(0)], &[[127, 0]], &[])), "met 0 1");
}
