//! A judgement as one HTML page, without anything fetched from elsewhere. All that it shows stands in it as text; its
//! script only marks and folds.
//!
//! - `html` makes pieces of a page, well-formed and escaped;
//! - `entries` lists the entries of a pattern; `block` draws a model, placed by `layout`; `tableau` draws the tree of
//!   branches; `records` shows what stands in a file that is refused, and marks the place, in tables of `listing`.

mod block;
mod entries;
mod html;
mod layout;
mod listing;
mod records;
mod tableau;

use html::{Html, document, element, text, words};
use oracle::explain::Conclusion;
use oracle::explain::formula::Formula;
use oracle::finding::{Finding, Refusal};
use oracle::pattern::Pattern;
use oracle::{model, pattern, tableau as tableau_file};

/// The part of a page that is its own: what is drawn, with the style and script for it.
#[derive(Default)]
struct Drawing {
    sections: Vec<Html>,
    style: &'static str,
    script: &'static str,
    /// The id of what a refusal points at.
    fault: Option<String>,
}

const STYLE: &str = include_str!("page.css");

/// The page of a pattern and a proposal, of which this was found; `names` are what they are called.
pub fn judgement(names: &[String; 2], pattern: &[u8], proposal: &[u8], conclusion: &Conclusion) -> String {
    let drawing = match pattern::parse(pattern) {
        Err(refusal) => records::pattern(pattern, refusal),
        Ok(parsed) => drawn(&parsed, proposal, conclusion),
    };
    page(names, drawing, conclusion)
}

/// The page of a text that is no typed pattern.
pub fn refused_text(names: &[String; 2], text: &[u8], refusal: Refusal, conclusion: &Conclusion) -> String {
    page(names, records::text(text, refusal), conclusion)
}

/// The proposal of a pattern that was read.
fn drawn(pattern: &Pattern, proposal: &[u8], conclusion: &Conclusion) -> Drawing {
    let formula = Formula::new(pattern);
    if tableau_file::is_marked(proposal) {
        match tableau_file::parse(pattern, proposal) {
            Ok(tableau) => tableau::drawing(pattern, &formula, &tableau, conclusion),
            Err(refusal) => records::tableau(pattern, &formula, proposal, refusal),
        }
    } else {
        match model::parse(proposal) {
            Ok(model) => block::drawing(pattern, &formula, &model, conclusion),
            Err(refusal) => records::model(pattern, &formula, proposal, refusal),
        }
    }
}

/// The whole page: the finding first, then what is drawn.
fn page(names: &[String; 2], drawing: Drawing, conclusion: &Conclusion) -> String {
    let kind = match conclusion.finding {
        Finding::Refused(_) => "finding refused",
        Finding::Unmet => "finding unmet",
        _ => "finding",
    };
    let link = drawing.fault.map(|id| html::link(&id, "Go to the place"));
    let told = [words("h1", &[], conclusion.finding), words("pre", &[], conclusion.words())];
    let finding = element("section", &[("id", "finding"), ("class", kind)], told.into_iter().chain(link));
    let [pattern, proposal] = names.each_ref().map(|name| words("code", &[], name));
    let judged = [text("Pattern: "), pattern, text(" Proposal: "), proposal];
    let judged = element("p", &[("class", "judged")], judged);
    let body = element("main", &[], [finding, judged].into_iter().chain(drawing.sections));
    let title = format!("{}: {}, {}", conclusion.finding, names[0], names[1]);
    document(&title, &format!("{STYLE}{}", drawing.style), drawing.script, vec![body])
}
