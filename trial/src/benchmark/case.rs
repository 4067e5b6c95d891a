//! What is timed: an input of one of the operations.

use super::judge::JUDGES;
use oracle::model::Model;
use oracle::pattern::Pattern;
use oracle::tableau::Tableau;

/// The lent area is longer than any judgement or any new file wants, so that the rest is seen to be unchanged.
pub const AREA: usize = unit::MODEL_LONGEST + 64;

/// What an area is filled with before the implementations are compared.
const FILL: u8 = 0xa5;

/// A pattern, to be read or asked for its area, or with a model or a tableau to judge, as files; or without a pattern a
/// model to put in order, or a text to type.
pub struct Case {
    pub name: String,
    pub pattern: Vec<u8>,
    pub proposal: Proposal,
}

pub enum Proposal {
    None,
    /// None either: the bytes of working area are asked for that judging a model wants.
    Area,
    Model(Vec<u8>),
    Tableau(Vec<u8>),
    Old(Vec<u8>),
    Text(Vec<u8>),
}

impl Case {
    pub fn reading(name: &str, pattern: &Pattern) -> Case {
        Case::new(name, pattern, Proposal::None)
    }

    pub fn area(name: &str, pattern: &Pattern) -> Case {
        Case::new(name, pattern, Proposal::Area)
    }

    pub fn model(name: &str, pattern: &Pattern, model: &Model) -> Case {
        Case::new(name, pattern, Proposal::Model(model.to_bytes()))
    }

    pub fn tableau(name: &str, pattern: &Pattern, tableau: &Tableau) -> Case {
        Case::new(name, pattern, Proposal::Tableau(tableau.to_bytes()))
    }

    pub fn ordering(name: &str, old: &Model) -> Case {
        Case { name: name.to_owned(), pattern: Vec::new(), proposal: Proposal::Old(old.to_bytes()) }
    }

    pub fn typing(name: &str, text: &[u8]) -> Case {
        Case { name: name.to_owned(), pattern: Vec::new(), proposal: Proposal::Text(text.to_vec()) }
    }

    fn new(name: &str, pattern: &Pattern, proposal: Proposal) -> Case {
        Case { name: name.to_owned(), pattern: pattern.to_bytes(), proposal }
    }

    /// The finding that all implementations give, or what each gives if they or their areas differ.
    pub fn agreed(&self) -> Result<String, String> {
        let answers = JUDGES.map(|judge| {
            let mut area = vec![FILL; AREA];
            let finding = (judge.finding)(self, &mut area);
            (judge.name, finding, area)
        });
        let (_, finding, area) = &answers[0];
        if answers.iter().all(|answer| (&answer.1, &answer.2) == (finding, area)) {
            return Ok(finding.clone());
        }
        let told = answers.iter().map(|(name, finding, area)| {
            let zeros = area.iter().filter(|&&byte| byte == 0).count();
            format!("{name} {finding}, {zeros} zeros in the area")
        });
        Err(format!("the implementations differ on {}: {}", self.name, told.collect::<Vec<_>>().join("; ")))
    }
}
