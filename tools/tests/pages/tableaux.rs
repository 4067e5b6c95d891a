//! The pages of tableaux: the tree of branches, forks, what is unfolded, and where a refused step stands.

use crate::files::{ENTRIES_D, STEPS_D, Step, pattern, tableau};
use crate::page;
use crate::parsed::Page;

/// A comparison of an empty fork: its line 1 forks as often as one likes, and the sides clash at once.
const TWIN: [[u8; 4]; 2] = [[11, 255, 255, 0], [7, 0, 0, 255]];
const COMPARE: Step = (7, 0, 0, 0);
const FORK: Step = (12, 1, 0, 0);
const CLASH: Step = (23, 2, 0, 0);

fn twin(steps: &[Step]) -> Page {
    page(&pattern(&TWIN), &tableau(0, steps))
}

/// Each fork on the right of the one before.
fn chain(forks: usize) -> Vec<Step> {
    [&[COMPARE], &[FORK, CLASH].repeat(forks)[..], &[CLASH]].concat()
}

/// Every branch forks, down to this depth.
fn balanced(depth: u32) -> Vec<Step> {
    let leaf = |leaf: u32| {
        let forks = if leaf == 0 { depth } else { leaf.trailing_zeros() };
        [&vec![FORK; forks as usize][..], &[CLASH]].concat()
    };
    [COMPARE].into_iter().chain((0..1 << depth).flat_map(leaf)).collect()
}

/// Of twins each fork has two new lines, and the first step one.
#[test]
fn every_line_and_step_is_there_once() {
    for steps in [chain(20), chain(1014), balanced(5), balanced(11)] {
        let page = twin(&steps);
        let forks = steps.iter().filter(|step| **step == FORK).count();
        assert_eq!(page.by_class("step").len(), steps.len());
        assert_eq!(page.by_class("line").len(), 2 + 2 * forks);
        assert!((0..steps.len()).all(|step| page.by_id(&format!("s{step}")).is_some()));
    }
}

#[test]
fn the_sides_of_a_fork_stand_beside_each_other() {
    for steps in [chain(20), chain(1014), balanced(11)] {
        let page = twin(&steps);
        let mut sides = vec![0; page.elements.len()];
        page.elements.iter().filter_map(|side| side.parent).for_each(|parent| sides[parent] += 1);
        let forks = page.elements.iter().zip(sides).filter(|(element, _)| element.has_class("fork"));
        let forks: Vec<usize> = forks.map(|(_, sides)| sides).collect();
        assert_eq!(forks, vec![2; steps.iter().filter(|step| **step == FORK).count()]);
    }
    let page = page(&pattern(&ENTRIES_D), &tableau(0, &STEPS_D));
    let sides: Vec<&str> = page.by_class("side").iter().map(|side| side.text.as_str()).collect();
    assert!(sides[0].starts_with("left of step 3 (1 step, 1 clash): [6] n0 lacks p0"), "{sides:?}");
    assert!(sides[0].ends_with("CLASH: [3] n0 has p0 against [6] n0 lacks p0"), "{sides:?}");
    assert!(sides[1].starts_with("right of step 3 (1 step, 1 clash): [6] n0 lacks p1"), "{sides:?}");
    assert!(sides[1].ends_with("CLASH: [1] n0 has p1 against [6] n0 lacks p1"), "{sides:?}");
}

/// Browsers tear apart what is nested over 512 deep.
#[test]
fn no_depth_is_too_much_for_a_browser() {
    let page = twin(&chain(1014));
    assert!(page.elements.iter().all(|element| element.depth < 100));
    let parts: Vec<&str> = page.by_class("part").iter().map(|part| part.attribute("id")).collect();
    let links = page.elements.iter().filter(|element| element.attribute("href").starts_with("#part"));
    let mut led: Vec<&str> = links.map(|link| &link.attribute("href")[1..]).collect();
    led.sort_by_key(|id| id[4..].parse::<usize>().expect("a number"));
    assert_eq!(led, parts[1..]);
    assert_eq!(parts.len(), 85);
}

#[test]
fn little_is_unfolded_at_first() {
    for steps in [balanced(11), chain(1014)] {
        let page = twin(&steps);
        let open = page.elements.iter().filter(|element| element.attributes.contains_key("open")).count();
        assert!((4..20).contains(&open), "{open}");
        let shown = page.by_class("step").into_iter().filter(|step| page.shows(step)).count();
        assert!((4..=110).contains(&shown), "{shown}");
    }
}

#[test]
fn a_refused_step_stands_in_its_place() {
    let mut steps = STEPS_D;
    steps[4] = (21, 3, 99, 0);
    let page = page(&pattern(&ENTRIES_D), &tableau(0, &steps));
    let refused = page.by_id("s4").expect("the step");
    assert!(refused.has_class("fault") && page.shows(refused));
    assert_eq!((refused.attribute("data-p"), refused.attribute("data-q")), ("l3", ""));
    assert!(refused.text.starts_with("refused here: step 4: "), "{}", refused.text);
    assert!(refused.text.contains("Q: line 99 isn't on this branch"), "{}", refused.text);
    assert!(refused.text.contains("Step 4: a line that it uses isn't on the branch"), "{}", refused.text);
    assert!(page.by_class("side")[1].text.starts_with("right of step 3 (not reached): "));
    let rest = page.by_id("s5").expect("the step behind it");
    assert_eq!(page.around(rest)[0].attribute("id"), "unreached");
    assert_eq!(rest.text, "step 5: rule 21, P 1, Q 6, argument 0");
}

#[test]
fn a_refused_step_that_is_deep_is_shown() {
    let mut steps = chain(500);
    steps[801].1 = 2000;
    let page = twin(&steps);
    let refused = page.by_id("s801").expect("the step");
    assert!(refused.has_class("fault") && page.shows(refused));
}

#[test]
fn a_step_behind_the_closed_tree_is_marked() {
    let page = page(&pattern(&ENTRIES_D), &tableau(0, &[&STEPS_D[..], &STEPS_D[5..]].concat()));
    let refused = page.by_id("s6").expect("the step");
    assert!(refused.has_class("fault") && refused.attribute("data-p").is_empty());
    assert_eq!(page.around(refused)[0].attribute("id"), "tree");
}

#[test]
fn an_open_end_is_marked() {
    let page = page(&pattern(&ENTRIES_D), &tableau(0, &STEPS_D[..4]));
    let open = page.by_id("open").expect("the end");
    assert!(open.text.starts_with("here: still open, the steps are at an end"), "{}", open.text);
    assert!(page.by_class("side")[1].text.starts_with("right of step 3 (not reached): "));
    assert!(page.by_id("unreached").is_none() && page.shows(open));
}
