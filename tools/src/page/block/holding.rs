//! Where the entries of a pattern hold in a block, and the table of entries that says it.

use crate::page::entries::{self, Row, has_name};
use crate::page::html::{Html, element};
use oracle::explain::formula::Formula;
use oracle::explain::model::places;
use oracle::explain::wording::joined;
use oracle::model::{MAX_NODES, Model, NodeSet, path_ends, where_holds};
use oracle::pattern::Pattern;

/// About the longest text of where a path leads, in letters; how many groups are left out is said.
const LONGEST: usize = 160;

/// By entry: at which nodes it holds, or from which a path leads somewhere; and what is said of it.
pub struct Holding {
    flags: Vec<Vec<bool>>,
    said: Vec<String>,
    marks: Vec<String>,
}

impl Holding {
    /// Of a block that lists the pattern's names.
    pub fn new(pattern: &Pattern, model: &Model) -> Holding {
        let mut flags = where_holds(pattern, model);
        let mut said: Vec<String> = flags.iter().map(|flags| places(flags)).collect();
        let ends = path_ends(pattern, model);
        for (entry, ends) in ends.iter().enumerate().filter(|(entry, _)| pattern.entries[*entry].is_path()) {
            flags[entry] = ends[..model.nodes.len()].iter().map(|&ends| ends != 0).collect();
            said[entry] = leads(&ends[..model.nodes.len()]);
        }
        let verb = |entry: usize| if pattern.entries[entry].is_path() { "leads on" } else { "holds" };
        let marks = (0..pattern.entries.len()).map(|entry| format!("e{entry} {}", verb(entry))).collect();
        Holding { flags, said, marks }
    }

    /// At which nodes the entry holds.
    pub fn flags(&self, entry: usize) -> &[bool] {
        &self.flags[entry]
    }

    fn row(&self, entry: usize) -> Row {
        let nodes = self.flags[entry].iter().enumerate().filter(|(_, holds)| **holds);
        let nodes = joined(nodes.map(|(node, _)| node.to_string()));
        let label = format!("mark where {}", self.marks[entry]);
        let button =
            [("type", "radio"), ("name", "entry"), ("value", &self.marks[entry]), ("aria-label", &label)];
        let before = Some(element("input", &button, []));
        Row { fault: false, before, said: self.said[entry].clone(), nodes: Some(nodes) }
    }
}

/// Where a path leads, by the node it starts from. Nodes from which it leads to the same ends are taken
/// together.
fn leads(ends: &[NodeSet]) -> String {
    let mut groups: Vec<(NodeSet, NodeSet)> = Vec::new();
    for (node, &ends) in ends.iter().enumerate().filter(|(_, ends)| **ends != 0) {
        match groups.iter_mut().find(|group| group.1 == ends) {
            Some(group) => group.0 |= 1 << node,
            None => groups.push((1 << node, ends)),
        }
    }
    let nodes = |set: NodeSet| match set.count_ones() as usize {
        all if all == ends.len() && all > 1 => "every node".to_string(),
        _ => joined((0..MAX_NODES).filter(|node| set >> node & 1 == 1).map(|node| node.to_string())),
    };
    let groups = groups.iter().map(|&(from, to)| format!("from {} to {}", nodes(from), nodes(to)));
    match shortened(&groups.collect::<Vec<_>>()) {
        nowhere if nowhere.is_empty() => "leads nowhere".to_string(),
        groups => format!("leads {groups}"),
    }
}

/// As many groups as there is room for, the first at least, and how many are left out.
fn shortened(groups: &[String]) -> String {
    let mut text = String::new();
    for (number, group) in groups.iter().enumerate() {
        if number > 0 && text.len() + group.len() > LONGEST {
            return format!("{text}; and {} further such", groups.len() - number);
        }
        text += if number > 0 { "; " } else { "" };
        text += group;
    }
    text
}

/// The table of entries: what is said of them, with a button to choose each.
pub fn table(pattern: &Pattern, formula: &Formula, holding: &Holding) -> Html {
    entries::table(pattern, formula, "holds at", |entry| holding.row(entry))
}

/// The table where the block doesn't list a name of the pattern, so that it isn't settled where entries hold: said of
/// every entry with such a name, and marked of those with the one that is refused.
pub fn table_without(pattern: &Pattern, formula: &Formula, model: &Model, name: u8) -> Html {
    let said = |entry: usize| match pattern.entries[entry].name() {
        Some(name) if !model.lists(name) => format!("the block has no n{name}"),
        _ => String::new(),
    };
    let row =
        |entry| Row { fault: has_name(pattern, entry, Some(name)), said: said(entry), ..Row::default() };
    entries::table(pattern, formula, "what is missing", row)
}

#[cfg(test)]
mod tests {
    use super::*;

    #[test]
    fn where_a_path_leads() {
        assert_eq!(leads(&[0, 0]), "leads nowhere");
        assert_eq!(leads(&[0b110, 0, 0, 0b10000, 0]), "leads from 0 to 1 2; from 3 to 4");
        assert_eq!(leads(&[0b100, 0b100, 0b100]), "leads from every node to 2");
        assert_eq!(leads(&[0b100, 0, 0b100]), "leads from 0 2 to 2");
        assert_eq!(leads(&[1]), "leads from 0 to 0");
        let long = leads(&(0..64).map(|node| NodeSet::MAX >> node).collect::<Vec<_>>());
        assert_eq!(long, "leads from 0 to every node; and 63 further such");
    }
}
