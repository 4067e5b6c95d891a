//! The differential run itself tested: it sees faults that are planted, repeats itself, and fails when
//! something never occurs.

mod either;
mod faults;

use faults::area::{self, ASKED, MISPLACED, asked};
use faults::edges::{self, Edges, unordered};
use faults::fresh::{RIGHT, SEARCHES, SETS};
use faults::model::{MISREADINGS, misread};
use faults::names::{MISTAKES, mistaken, names_before_edges};
use faults::ordering::{self, OTHER_BYTES, OTHER_FINDINGS, TOUCHED};
use faults::rows;
use faults::slots::{COMPARINGS, compared};
use faults::tableau::{self, Fault, NONE};
use faults::typing::{self, BRACES, OTHER_NUMBERS};
use oracle::finding::{Finding, Refusal};
use oracle::model::{area_wanted, check_names};
use trial::differential::compare::{Comparer, What};
use trial::differential::guarded::Against;
use trial::differential::implementation::{Implementation, Lent, ORACLE, UNIT, run_oracle};
use trial::differential::run::{Failure, Run};
use trial::differential::tally::Tally;
use trial::generate::input::{Input, Kind, Operation};
use trial::generate::{BLOCK, Generator};

/// Enough inputs for every planted fault to be seen.
const RUN: Run = Run { seed: 1, count: 64 * BLOCK, threads: 2 };
/// Enough inputs to tell that what a fault is planted in is right without it.
const CONTROL: Run = Run { count: 16 * BLOCK, ..RUN };
/// Enough inputs for everything to occur.
const COMPLETE: Run = Run { count: 160 * BLOCK, ..RUN };

/// Runs an implementation with a planted fault against the independent one.
fn planted(fault: &(dyn Fn(Operation, Lent) -> Finding + Sync)) -> Result<Tally, Box<Failure>> {
    RUN.go(&[ORACLE, Implementation { name: "planted", run: fault }])
}

/// Asserts that an implementation in which faults are planted is right without one.
fn is_right(unplanted: &(dyn Fn(Operation, Lent) -> Finding + Sync)) {
    assert!(CONTROL.go(&[ORACLE, Implementation { name: "unplanted", run: unplanted }]).is_ok());
}

/// What is seen of the fault.
fn seen(fault: &(dyn Fn(Operation, Lent) -> Finding + Sync)) -> What {
    let Err(failure) = planted(fault) else { panic!("the fault isn't seen") };
    assert_eq!(failure.difference.implementation, "planted");
    failure.difference.what
}

/// Asserts that a fault in judging the steps of a tableau is seen as another finding.
fn is_seen(fault: Fault) {
    let what = seen(&|operation, lent| fault.run(operation, lent));
    assert!(matches!(what, What::Finding { .. }), "{what:?}");
}

/// Asserts that a fault, one of several, is seen as another finding, or as one that demand 3 rules out.
fn is_seen_among(words: &str, fault: &(dyn Fn(Operation, Lent) -> Finding + Sync)) {
    let Err(failure) = planted(fault) else { panic!("not seen: {words}") };
    let what = failure.difference.what;
    assert!(matches!(what, What::Finding { .. } | What::Demand { .. }), "{words}: {what:?}");
}

fn tally(run: Run) -> Tally {
    run.go(&[ORACLE, UNIT])
        .unwrap_or_else(|failure| panic!("input {}: {}", failure.number, failure.difference))
}

#[test]
fn the_number_of_threads_changes_nothing() {
    let run = Run { count: 4 * BLOCK + 7, ..RUN };
    assert_eq!(tally(Run { threads: 1, ..run }), tally(Run { threads: 3, ..run }));
}

#[test]
fn an_input_is_a_function_of_seed_and_number() {
    let (mut in_order, mut alone) = (Input::blank(), Input::blank());
    let mut generator = Generator::new(9);
    for number in 0..2 * BLOCK {
        generator.make(number, &mut in_order);
        if number % 97 == 0 {
            Generator::new(9).make(number, &mut alone);
            assert_eq!(in_order, alone, "input {number}");
        }
    }
    Generator::new(10).make(97, &mut in_order);
    Generator::new(9).make(97, &mut alone);
    assert_ne!(in_order, alone);
}

#[test]
fn areas_are_filled_with_bytes_that_are_not_zero_and_differ_from_their_neighbours() {
    let mut input = Input::blank();
    let mut generator = Generator::new(1);
    for number in 0..BLOCK {
        generator.make(number, &mut input);
        let contents = input.area.contents();
        assert_eq!(contents.len(), input.area.length);
        assert!(contents.iter().all(|&byte| byte != 0));
        assert!(contents.windows(2).all(|pair| pair[0] != pair[1]));
    }
}

/// Checks that a situation of each sort is named if it never occurs.
fn check_situations(complete: &Tally) {
    for situation in [
        ("limit", "64 nodes judged"),
        ("names", "met, names used"),
        ("areas", "found in as many bytes as wanted"),
        ("areas wanted", "none of a pattern refused 8"),
        ("edges", "edge record 1 refused 28"),
        ("rows", "more paths in use than slots"),
        ("ends", "same by values of different nodes alone"),
        ("fresh names", "name by itself refused 22"),
        ("slots", "entries that share a slot read"),
        ("either", "refused 5, z not zero"),
        ("either in a model", "two equal parts"),
        ("either in a tableau", "rule 24 of lacking either refused 21"),
        ("older models", "destination one short refused 29"),
        ("older models judged", "met, edges out of order"),
        ("texts refused", "second | in a brace refused 30"),
        ("texts written", "255 entries"),
        ("texts judged", "met, something behind a brace"),
    ] {
        let mut tally = complete.clone();
        assert!(tally.shown.remove(&situation).is_some());
        assert_eq!(tally.missing(), [format!("{}: {}", situation.0, situation.1)]);
    }
}

/// Checks that a refusal is named if it never occurs.
fn check_refusals(complete: &Tally) {
    for (operation, number, words) in [
        (Operation::Reading, 8, "reading a pattern"),
        (Operation::Model, 14, "judging a model"),
        (Operation::Model, 27, "judging a model"),
        (Operation::Model, 28, "judging a model"),
        (Operation::Tableau, 24, "judging a tableau"),
        (Operation::Ordering, 29, "putting a model in order"),
        (Operation::Ordered, 14, "judging a model put in order"),
        (Operation::Typing, 31, "typing a pattern"),
        (Operation::Typed, 32, "judging a model of a typed pattern"),
    ] {
        let mut tally = complete.clone();
        assert!(tally.refused[operation as usize].remove(&number).is_some());
        assert_eq!(tally.missing(), [format!("refusal {number} of {words}")]);
    }
}

/// Checks that a cell of a grid is named if it never occurs.
fn check_grids(complete: &Tally) {
    for (grid, cell, words) in [
        (0, (6, 1), "numbers in texts, by what stands before them: name @, one above"),
        (1, (3, 0), "first wrong byte of a text, by what may stand there: >, the end"),
    ] {
        let mut tally = complete.clone();
        assert!(tally.grids[grid].remove(&cell).is_some());
        assert_eq!(tally.missing(), [words]);
    }
}

#[test]
fn everything_occurs_and_what_never_does_is_named() {
    let complete = tally(COMPLETE);
    check_situations(&complete);
    check_refusals(&complete);
    check_grids(&complete);
    let missing = |change: fn(&mut Tally)| {
        let mut tally = complete.clone();
        change(&mut tally);
        tally.missing()
    };
    assert_eq!(missing(|_| {}), [""; 0]);
    assert_eq!(missing(|tally| tally.met = 0), ["finding met"]);
    assert_eq!(missing(|tally| assert!(tally.names[0].remove(&77))), ["name 77 refused 27"]);
    assert_eq!(missing(|tally| tally.written = 0), ["finding written"]);
    assert_eq!(missing(|tally| assert!(tally.areas.remove(&0))), ["an area of 0 bytes wanted"]);
    assert_eq!(missing(|tally| assert!(tally.areas.remove(&2040))), ["an area of 2040 bytes wanted"]);
    let seldom = "rule 24 in a closed tableau, once in 1000 inputs";
    assert_eq!(missing(|tally| tally.rules[24].closed = tally.inputs / 1001), [seldom]);
    assert_eq!(missing(|tally| tally.rules[3].refused[1] = 0), ["a step with rule 3 refused 21"]);
    assert_eq!(missing(|tally| tally.rules[14].refused[2] = 0), ["a step with rule 14 refused 22"]);
    assert_eq!(missing(|tally| tally.short[1][9] = 0), ["a file of 9 bytes for judging a model"]);
    assert_eq!(missing(|tally| assert!(tally.names[1].remove(&0))), ["name 0 refused 18"]);
    assert_eq!(missing(|tally| assert!(tally.names[2].remove(&64))), ["name 64 of the branch refused 22"]);
    assert_eq!(missing(|tally| assert!(tally.names[3].remove(&127))), ["name 127 of the pattern refused 22"]);
    assert_eq!(missing(|tally| tally.kinds[Kind::Unrelated as usize] = 0).len(), 1);
    assert!(Tally::default().missing().len() > 300);
}

#[test]
fn a_reader_that_compares_an_entry_with_others_than_all_earlier_ones_is_seen() {
    for (words, repeats) in COMPARINGS {
        is_seen_among(words, &|operation, lent| compared(repeats, operation, lent));
    }
}

#[test]
fn a_judge_that_says_unmet_for_every_model_is_seen() {
    let what = seen(&|operation, lent| match run_oracle(operation, lent) {
        Finding::Met { .. } => Finding::Unmet,
        finding => finding,
    });
    assert!(matches!(what, What::Finding { found: Finding::Unmet, .. }));
}

#[test]
fn a_judge_that_counts_one_node_too_many_is_seen() {
    let what = seen(&|operation, lent| match run_oracle(operation, lent) {
        Finding::Met { lowest, number } => Finding::Met { lowest, number: number + 1 },
        finding => finding,
    });
    assert!(matches!(what, What::Finding { .. }));
}

#[test]
fn a_panic_is_seen() {
    let what = seen(&|operation, lent| match run_oracle(operation, lent) {
        Finding::Closed { .. } => panic!("planted"),
        finding => finding,
    });
    assert_eq!(what, What::Panic);
}

#[test]
fn an_area_that_is_not_cleared_is_seen() {
    let what = seen(&|operation, lent| {
        let mut copy = lent.area.to_vec();
        run_oracle(operation, Lent { area: &mut copy, ..lent })
    });
    assert!(matches!(what, What::Area { at: 0, expected: 0, before, found } if before == found));
}

/// The oracle, which then writes the byte to the area if it is that long and wasn't left unchanged.
fn and_writes(operation: Operation, lent: Lent, (at, byte): (usize, u8)) -> Finding {
    let before = lent.area.first().copied();
    let Lent { pattern, proposal, area } = lent;
    let finding = run_oracle(operation, Lent { pattern, proposal, area: &mut *area });
    if area.first().copied() != before && at < area.len() {
        area[at] = byte;
    }
    finding
}

#[test]
fn one_byte_cleared_too_few_or_too_many_is_seen() {
    let last_of_model = seen(&|operation, lent| match operation {
        Operation::Model => {
            let last = area_wanted(lent.pattern).saturating_sub(1);
            and_writes(operation, lent, (last, 7))
        }
        _ => run_oracle(operation, lent),
    });
    assert!(matches!(last_of_model, What::Area { at, expected: 0, found: 7, .. } if at % 8 == 7));
    let one_over = seen(&|operation, lent| match operation {
        Operation::Tableau => and_writes(operation, lent, (8192, 0)),
        _ => run_oracle(operation, lent),
    });
    assert!(matches!(one_over, What::Area { at: 8192, found: 0, .. }));
}

#[test]
fn a_changed_pattern_or_proposal_is_seen() {
    let pattern = seen(&|operation, Lent { pattern, proposal, area }| {
        let finding = run_oracle(operation, Lent { pattern: &mut *pattern, proposal, area });
        pattern.iter_mut().for_each(|byte| *byte ^= 1);
        finding
    });
    assert_eq!(pattern, What::Pattern);
    let proposal = seen(&|operation, Lent { pattern, proposal, area }| {
        let finding = run_oracle(operation, Lent { pattern, proposal: &mut *proposal, area });
        proposal.reverse();
        finding
    });
    assert_eq!(proposal, What::Proposal);
}

#[test]
fn a_finding_against_demand_3_is_seen_without_any_other_implementation() {
    let says_met = Implementation {
        name: "planted",
        run: &|operation, lent| match run_oracle(operation, lent) {
            Finding::Unmet => Finding::Met { lowest: 0, number: 1 },
            finding => finding,
        },
    };
    let Err(failure) = RUN.go(&[says_met]) else { panic!("the fault isn't seen") };
    assert_eq!(failure.difference.what, What::Demand { found: Finding::Met { lowest: 0, number: 1 } });
    assert!(matches!(failure.input.kind, Kind::ModelOfClosed | Kind::JudgedOldModel));
}

#[test]
fn misreadings_of_a_model_are_seen() {
    for (words, change) in MISREADINGS {
        is_seen_among(words, &|operation, lent| misread(change, operation, lent));
    }
}

#[test]
fn mistakes_about_the_rows_of_paths_are_seen() {
    for (words, keeper) in rows::MISTAKES {
        is_seen_among(words, &|operation, lent| keeper.run(operation, lent));
    }
}

#[test]
fn mistakes_about_the_length_of_the_area_are_seen() {
    for (words, refuses) in area::OTHER_FINDINGS {
        let judge = area::Judge { refuses, ..area::RIGHT };
        is_seen_among(words, &|operation, lent| judge.run(operation, lent));
    }
    for (words, bytes) in ASKED {
        is_seen_among(words, &|operation, lent| asked(bytes, operation, lent));
    }
}

#[test]
fn mistakes_about_what_of_the_area_is_zeroed_are_seen() {
    for (words, zeroes) in area::OTHER_BYTES {
        let judge = area::Judge { zeroes, ..area::RIGHT };
        let what = seen(&|operation, lent| judge.run(operation, lent));
        assert!(matches!(what, What::Area { .. }), "{words}: {what:?}");
    }
}

#[test]
fn sets_that_share_a_place_are_seen() {
    for (words, change) in MISPLACED {
        is_seen_among(words, &|operation, lent| misread(change, operation, lent));
    }
}

#[test]
fn mistakes_about_the_names_to_be_listed_are_seen() {
    for (words, place) in MISTAKES {
        is_seen_among(words, &|operation, lent| mistaken(place, operation, lent));
    }
}

#[test]
fn mistakes_about_the_order_of_edges_are_seen() {
    for (words, refuses) in edges::MISTAKES {
        is_seen_among(words, &|operation, lent| unordered(refuses, operation, lent));
    }
}

/// Asserts that a fault is seen where a refusal of this number is expected.
fn is_seen_at(number: u16, fault: &(dyn Fn(Operation, Lent) -> Finding + Sync)) {
    let what = seen(fault);
    let expected = |finding: Finding| finding.to_string().starts_with(&format!("refused {number} "));
    assert!(matches!(what, What::Finding { expected: finding, .. } if expected(finding)), "{what:?}");
}

#[test]
fn names_looked_at_before_edges_are_seen() {
    is_seen_at(14, &names_before_edges::<14>);
    is_seen_at(28, &names_before_edges::<28>);
}

#[test]
fn an_area_cleared_by_refusal_27_or_28_is_seen() {
    for refused in ["refused 27 ", "refused 28 "] {
        let what = seen(&|operation, Lent { pattern, proposal, area }| {
            let finding = run_oracle(operation, Lent { pattern, proposal, area: &mut *area });
            if finding.to_string().starts_with(refused) {
                area[..8].fill(0);
            }
            finding
        });
        assert!(matches!(what, What::Area { at: 0, found: 0, .. }), "{what:?}");
    }
}

#[test]
fn mistakes_in_putting_a_model_in_order_are_seen() {
    for (words, orderer) in OTHER_FINDINGS {
        is_seen_among(words, &|operation, lent| orderer.run(operation, lent));
    }
    for (words, orderer) in OTHER_BYTES {
        let what = seen(&|operation, lent| orderer.run(operation, lent));
        assert!(matches!(what, What::Area { .. }), "{words}: {what:?}");
    }
}

#[test]
fn a_destination_changed_by_a_refusal_is_seen() {
    for (number, orderer) in TOUCHED {
        let what = seen(&|operation, lent| orderer.run(operation, lent));
        assert!(
            matches!(what, What::Area { before, expected, .. } if before == expected),
            "{number}: {what:?}"
        );
    }
}

/// The new file isn't looked at: what patterns find in it tells.
#[test]
fn an_edge_lost_is_seen_by_what_patterns_find() {
    let lost = OTHER_FINDINGS.iter().filter(|(words, _)| words.ends_with(" edge is lost"));
    for (words, orderer) in lost {
        is_seen_among(words, &|operation, lent| orderer.run_judged(operation, lent));
    }
}

#[test]
fn an_older_model_judged_as_it_stands_is_seen() {
    let what = seen(&|operation, lent| match operation {
        Operation::Ordered => run_oracle(Operation::Model, lent),
        _ => run_oracle(operation, lent),
    });
    assert!(
        matches!(what, What::Finding { found: Finding::Refused(Refusal { number: 28, .. }), .. }),
        "{what:?}"
    );
}

#[test]
fn mistakes_about_what_is_refused_of_a_text_are_seen() {
    for (words, typist) in typing::OTHER_FINDINGS.into_iter().chain(OTHER_NUMBERS) {
        is_seen_among(words, &|operation, lent| typist.run(operation, lent));
    }
}

/// A file that is wrong may be of another length too.
#[test]
fn mistakes_in_completing_entries_are_seen() {
    for (words, typist) in typing::OTHER_BYTES.into_iter().chain(BRACES) {
        let what = seen(&|operation, lent| typist.run(operation, lent));
        assert!(matches!(what, What::Finding { .. } | What::Area { .. }), "{words}: {what:?}");
    }
}

/// The file isn't looked at: what is found of models tells.
#[test]
fn a_path_lost_behind_a_brace_is_seen_by_what_models_meet() {
    for (words, typist) in BRACES {
        is_seen_among(words, &|operation, lent| typist.run_judged(operation, lent));
    }
}

#[test]
fn a_destination_changed_by_a_refused_text_is_seen() {
    for (number, typist) in typing::TOUCHED {
        let what = seen(&|operation, lent| typist.run(operation, lent));
        assert!(
            matches!(what, What::Area { before, expected, .. } if before == expected),
            "{number}: {what:?}"
        );
    }
}

#[test]
fn the_planted_judges_are_right_without_a_fault() {
    let lowest = |pattern: &_, model: &_| check_names(pattern, model).err().map(|refusal| refusal.place);
    is_right(&|operation, lent| mistaken(lowest, operation, lent));
    is_right(&|operation, lent| unordered(Edges::right, operation, lent));
    is_right(&|operation, lent| area::RIGHT.run(operation, lent));
    is_right(&|operation, lent| asked(area_wanted, operation, lent));
    is_right(&|operation, lent| misread(area::in_place, operation, lent));
    is_right(&|operation, lent| NONE.run(operation, lent));
    is_right(&|operation, lent| rows::RIGHT.run(operation, lent));
    is_right(&|operation, lent| rows::SWEEPING.run(operation, lent));
    is_right(&|operation, lent| ordering::RIGHT.run(operation, lent));
    is_right(&|operation, lent| ordering::RIGHT.run_judged(operation, lent));
    is_right(&|operation, lent| typing::RIGHT.run(operation, lent));
    is_right(&|operation, lent| typing::RIGHT.run_judged(operation, lent));
}

#[test]
fn rule_16_while_paths_remain_is_seen() {
    is_seen(Fault { accepts: tableau::rule_16_while_paths_remain, ..NONE });
}

#[test]
fn rule_22_while_paths_remain_is_seen() {
    is_seen(Fault { accepts: tableau::rule_22_while_paths_remain, ..NONE });
}

#[test]
fn rule_11_with_one_side_only_is_seen() {
    is_seen(Fault { alters: tableau::one_side_of_rule_11, ..NONE });
}

#[test]
fn a_right_side_with_left_lines_is_seen() {
    is_seen(Fault { keeps_left_lines: true, ..NONE });
}

#[test]
fn a_name_of_the_branch_taken_as_fresh_in_rule_5_is_seen() {
    is_seen(Fault { accepts: tableau::stale_name::<5>, ..NONE });
}

#[test]
fn a_name_of_the_branch_taken_as_fresh_in_rule_14_is_seen() {
    is_seen(Fault { accepts: tableau::stale_name::<14>, ..NONE });
}

#[test]
fn mistakes_about_the_names_that_a_pattern_uses_are_seen() {
    for (words, uses) in SETS {
        is_seen_among(words, &|operation, lent| Fault { uses, ..NONE }.run(operation, lent));
    }
}

#[test]
fn mistakes_in_searching_a_branch_are_seen() {
    for (words, has) in SEARCHES {
        is_seen_among(words, &|operation, lent| Fault { has, ..NONE }.run(operation, lent));
    }
}

#[test]
fn a_search_of_sides_that_have_ended_is_seen() {
    is_seen(Fault { searches_ended_sides: true, ..NONE });
}

#[test]
fn searches_that_leave_out_what_never_stands_alone_are_right() {
    for (words, has) in RIGHT {
        let found = planted(&|operation, lent| Fault { has, ..NONE }.run(operation, lent));
        assert!(found.is_ok(), "{words}");
    }
}

#[test]
fn two_differs_chained_are_seen() {
    is_seen(Fault { accepts: tableau::two_differs, ..NONE });
}

#[test]
fn an_axis_ignored_in_rule_6_is_seen() {
    is_seen(Fault { accepts: tableau::any_axis::<6>, ..NONE });
}

#[test]
fn an_axis_ignored_in_rule_15_is_seen() {
    is_seen(Fault { accepts: tableau::any_axis::<15>, ..NONE });
}

#[test]
fn closing_after_the_first_clash_is_seen() {
    is_seen(Fault { closes_at_once: true, ..NONE });
}

#[test]
fn a_clash_of_a_line_with_itself_is_seen() {
    is_seen(Fault { accepts: tableau::alike_with_sign, ..NONE });
}

#[test]
fn rule_22_with_its_lines_exchanged_is_seen() {
    is_seen(Fault { accepts: tableau::exchanged, ..NONE });
}

#[test]
fn rule_19_for_another_name_is_seen() {
    is_seen(Fault { accepts: tableau::other_name, ..NONE });
}

#[test]
fn an_input_may_be_put_against_either_end() {
    let mut input = Input::blank();
    Generator::new(1).make(1, &mut input);
    let mut comparer = Comparer::new();
    let found =
        [Against::Beginning, Against::End].map(|against| comparer.compare(&input, against, &[ORACLE, UNIT]));
    assert!(found[0].is_ok());
    assert_eq!(found[0], found[1]);
}
