//! The pages of refusals: what is pointed at is marked, and nothing else.

use crate::files::{ENTRIES_A, model, model_g, pattern, plain, tableau};
use crate::parsed::{Element, Page};
use crate::{names, page};
use oracle::explain::refusal;
use oracle::typed::type_pattern;
use tools::agreed::explained;
use tools::page::{judgement, refused_text};

/// The ids of what is marked, which is said to be there.
fn marked(page: &Page) -> Vec<String> {
    let faults = page.by_class("fault");
    assert!(faults.iter().all(|fault| fault.text.contains("here")), "{faults:?}");
    faults.iter().map(|fault: &&Element| fault.attribute("id").to_string()).collect()
}

/// Checks what is marked, and that the page leads there.
fn check(page: &Page, ids: &[&str]) {
    assert_eq!(marked(page), ids);
    let link = page.elements.iter().find(|element| element.name == "a" && element.text == "Go to the place");
    let target = link.and_then(|link| link.attribute("href").strip_prefix('#'));
    assert_eq!(target.is_some(), !ids.is_empty());
    assert!(target.is_none_or(|target| ids.contains(&target)), "{target:?}");
    assert!(page.by_class("fault").iter().all(|fault| page.shows(fault)), "{ids:?}");
}

#[test]
fn of_pattern_files() {
    let one = [1, 0, 0, 0];
    check(&page(b"", b""), &["field-0"]);
    check(&page(b"PAT\x01\x00", b""), &["field-3"]);
    check(&page(b"PAT\x01\x00\x00", b""), &["field-2"]);
    check(&page(b"PAX\x01\x00\x01\x01\x00\x00\x00", b""), &["field-0"]);
    check(&page(b"PAT\x02\x00\x01\x01\x00\x00\x00", b""), &["field-1"]);
    check(&page(b"PAT\x01\x00\x02\x01\x00\x00\x00", b""), &["field-3"]);
    check(&page(&pattern(&[one, [13, 0, 0, 0]]), b""), &["entry-1"]);
    check(&page(&pattern(&[one, [1, 32, 0, 0]]), b""), &["entry-1"]);
    check(&page(&pattern(&[one, [3, 1, 0, 0]]), b""), &["entry-1"]);
    check(&page(&pattern(&[one, one]), b""), &["entry-1"]);
    check(&page(&pattern(&[one, [8, 0, 255, 0]]), b""), &["entry-1"]);
}

#[test]
fn of_model_files() {
    let a = pattern(&ENTRIES_A);
    let spoilt = |at: usize, value: u8| {
        let mut bytes = model_g();
        bytes[at] = value;
        page(&a, &bytes)
    };
    check(&page(&a, b"DAT"), &["field-5"]);
    check(&page(&a, b"DAX"), &["field-0"]);
    check(&spoilt(3, 2), &["field-1"]);
    check(&spoilt(5, 5), &["field-5"]);
    check(&spoilt(5, 0), &["field-2"]);
    check(&spoilt(5, 65), &["field-2"]);
    check(&spoilt(6, 129), &["field-3"]);
    check(&spoilt(8, 17), &["field-4"]);
    let nodes = [plain(0), plain(1)];
    check(&page(&a, &model(&nodes, &[[3, 0], [4, 2]], &[])), &["name-1"]);
    check(&page(&a, &model(&nodes, &[], &[[0, 0, 1], [0, 8, 1]])), &["edge-1"]);
    check(&page(&a, &model(&nodes, &[], &[[0, 0, 1], [1, 1, 1], [0, 0, 1]])), &["edge-2"]);
    check(
        &page(&pattern(&[[2, 9, 0, 0], [1, 0, 0, 0], [9, 9, 255, 0], [6, 0, 2, 255]]), &model_g()),
        &["e0", "e2"],
    );
}

#[test]
fn of_tableau_files() {
    let a = pattern(&ENTRIES_A);
    check(&page(&a, b"TAB"), &["field-4"]);
    check(&page(&a, b"TAB\x02\x00\x00\x01\x00\x02\x00\x00\x00\x00\x00"), &["field-1"]);
    check(&page(&a, b"TAB\x01\x00\x00\x02\x00\x02\x00\x00\x00\x00\x00"), &["field-4"]);
    check(&page(&a, b"TAB\x01\x00\x00\x00\x00"), &["field-3"]);
    let named = pattern(&[[2, 4, 0, 0], [3, 0, 0, 0]]);
    check(&page(&named, &tableau(4, &[(1, 0, 0, 0)])), &["e0", "field-2"]);
}

#[test]
fn of_steps() {
    let a = pattern(&ENTRIES_A);
    let both = (2, 0, 0, 0);
    for refused in [(26, 0, 0, 0), (2, 9, 0, 0), (2, 1, 0, 0), (5, 1, 0, 0)] {
        let page = page(&a, &tableau(0, &[both, refused, (1, 2, 0, 0)]));
        check(&page, &["s1"]);
        assert!(page.by_id("s2").is_some());
    }
    let closed = [both, (1, 2, 0, 0), (21, 1, 3, 0), (1, 2, 0, 0)];
    check(&page(&a, &tableau(0, &closed)), &["s3"]);
    check(&page(&a, &tableau(0, &closed[..2])), &["open"]);
}

/// The page of a text that is refused.
fn page_of_text(text: &[u8]) -> Page {
    let refused = type_pattern(text, 1026).expect_err("a text that is refused");
    Page::read(&refused_text(&names(), text, refused, &refusal::of_text(text, refused)))
}

#[test]
fn of_texts() {
    for text in ["", "(p0&", "p32", "<8>p0", "(p0<p1)", "<script>&\"'", "p0\n", "\u{e9}"] {
        let page = page_of_text(text.as_bytes());
        check(&page, &["here"]);
    }
    check(&page_of_text(&[b'!'; 1025]), &["here"]);
    let long = page_of_text(&[b'!'; 1030]);
    assert!(long.by_class("typed")[0].text.ends_with("! here: too long from here on: ! !!!!!"));
    check(&page_of_text(format!("{}p0", "!".repeat(255)).as_bytes()), &[]);
    let typed = page_of_text(b"(p0<p1)");
    assert_eq!(typed.by_class("typed")[0].text, "(p0 here: < p1)");
    let bytes = page_of_text(b"\xff\0<b>&amp;");
    assert_eq!(bytes.by_class("typed")[0].text, " here: \\xff \\x00<b>&amp;");
}

/// Names of files are text like any other.
#[test]
fn names_are_escaped() {
    let names = ["<b>&\"quoted\"".to_string(), "a\u{1}b</title>".to_string()];
    let (a, block) = (pattern(&ENTRIES_A), model_g());
    let conclusion = explained(&a, &block).expect("a finding").conclusion;
    let page = Page::read(&judgement(&names, &a, &block, &conclusion));
    assert!(page.text().contains("<b>&\"quoted\""));
    assert!(page.text().contains("a\u{fffd}b</title>"));
}
