//! Fields and records of a file as tables, a row each.

use super::Drawing;
use super::html::{self, Html, element, text, words};
use oracle::explain::refusal::{file_length, shown};
use std::ops::Range;

/// Of a longer listing only the records near the one at fault are unfolded.
const FEW: usize = 40;
const NEAR: usize = 6;

/// The fields before the records of a file, and the file's length.
pub struct Header {
    fields: Vec<Vec<String>>,
    /// Those that are at fault.
    faults: Vec<usize>,
}

/// A number in a header: its name, its place and its bytes, and whether it is out of range.
pub type Number<'a> = (&'a str, usize, usize, bool);

impl Header {
    /// Mark and version, which all files have, other numbers, and the length of the file. If one of the checks of a
    /// header refused it, what it is about is at fault: the mark, the version, what is out of range, or else the length.
    pub fn new(bytes: &[u8], mark: &str, numbers: &[Number], refused: Option<Check>) -> Header {
        let number = |&(name, place, length, _): &Number| {
            let value = bytes.get(place..place + length).map(|field| number_of(field).to_string());
            vec![name.to_string(), value.unwrap_or("missing".to_string())]
        };
        let begin = shown(&bytes[..bytes.len().min(mark.len())]);
        let marked = begin == mark;
        let version = ("version", 3, 2, false);
        let first = [vec!["mark".to_string(), begin], number(&version)];
        let last = vec!["length".to_string(), file_length(bytes.len())];
        let fields: Vec<Vec<String>> =
            first.into_iter().chain(numbers.iter().map(number)).chain([last]).collect();
        let out_of_range = (2..).zip(numbers).filter(|(_, number)| number.3).map(|(field, _)| field);
        let faults = match refused {
            None => vec![],
            Some(Check::Mark) if !marked => vec![0],
            Some(Check::Mark) => vec![fields.len() - 1],
            Some(Check::Version) => vec![1],
            Some(Check::Numbers) => or_else(out_of_range.collect(), fields.len() - 1),
        };
        Header { fields, faults }
    }
}

/// The checks of a header: mark and least length, version, numbers and length.
#[derive(Clone, Copy)]
pub enum Check {
    Mark,
    Version,
    Numbers,
}

fn or_else(faults: Vec<usize>, other: usize) -> Vec<usize> {
    if faults.is_empty() { vec![other] } else { faults }
}

/// Records of one sort.
pub struct Listing {
    pub title: &'static str,
    /// What the ids of the rows begin with.
    pub id: &'static str,
    pub columns: &'static [&'static str],
    /// The cells of each record, its number left out.
    pub rows: Vec<Vec<String>>,
}

/// The tables of a file, below other sections; each listing with the record that is at fault.
pub fn drawing(mut sections: Vec<Html>, header: Header, listings: Vec<(Listing, Option<u16>)>) -> Drawing {
    let in_header = header.faults.first().map(|field| row_id("field", *field));
    let in_records = listings.iter().find_map(|(listing, fault)| Some(row_id(listing.id, (*fault)?.into())));
    let fields = header.fields.iter().enumerate();
    let rows = fields.map(|(field, cells)| row("field", field, cells, header.faults.contains(&field)));
    let header = html::section(None, "Header", [html::table("mono", &["field", "value"], rows)]);
    let listings = listings.iter().filter(|(listing, _)| !listing.rows.is_empty());
    let listings = listings.map(|(listing, fault)| listing.section(fault.map(usize::from)));
    sections.push(element("div", &[("class", "tables")], [header].into_iter().chain(listings)));
    Drawing { sections, fault: in_header.or(in_records), ..Drawing::default() }
}

impl Listing {
    /// The records, one of them marked if it is at fault.
    fn section(&self, fault: Option<usize>) -> Html {
        let (all, near) = (self.rows.len(), self.near(fault));
        let folded = |rows: Range<usize>| match rows.len() {
            0 => Html::default(),
            _ => {
                let summary = format!("{} {} to {}", self.columns[0], rows.start, rows.end - 1);
                html::details(&[], false, [text(summary)], vec![self.table(rows, fault)])
            }
        };
        let pieces = [folded(0..near.start), self.table(near.clone(), fault), folded(near.end..all)];
        html::section(None, self.title, pieces)
    }

    /// The records that are unfolded: all, if there are few.
    fn near(&self, fault: Option<usize>) -> Range<usize> {
        let all = self.rows.len();
        match fault {
            _ if all <= FEW => 0..all,
            Some(fault) => fault.saturating_sub(NEAR)..all.min(fault + NEAR + 1),
            None => 0..NEAR,
        }
    }

    fn table(&self, records: Range<usize>, fault: Option<usize>) -> Html {
        let rows = records.map(|number| {
            let cells = [&[number.to_string()], &self.rows[number][..]].concat();
            row(self.id, number, &cells, fault == Some(number))
        });
        html::table("mono", self.columns, rows)
    }
}

fn row(id: &str, number: usize, cells: &[String], fault: bool) -> Html {
    let pointer = fault.then(html::here);
    let first = element("td", &[], pointer.into_iter().chain([text(&cells[0])]));
    let others = cells[1..].iter().map(|cell| words("td", &[], cell));
    let id = row_id(id, number);
    let class = fault.then_some(("class", "fault"));
    let attributes: Vec<_> = [("id", id.as_str())].into_iter().chain(class).collect();
    element("tr", &attributes, [first].into_iter().chain(others))
}

fn row_id(id: &str, number: usize) -> String {
    format!("{id}-{number}")
}

/// A little-endian number of up to four bytes.
pub fn number_of(bytes: &[u8]) -> u32 {
    bytes.iter().rev().fold(0, |number, &byte| number << 8 | u32::from(byte))
}
