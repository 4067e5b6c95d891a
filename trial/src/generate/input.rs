//! An input of the differential run: an operation, the bytes lent to it, and where they came from.

use super::area::Area;

/// The operations of documents 01 and 02, judgements of what two of them write, and the question how long an area
/// another wants.
#[derive(Clone, Copy, Debug, PartialEq, Eq, Hash)]
pub enum Operation {
    Reading,
    Model,
    Tableau,
    /// Putting an older model in order, without a pattern. What is lent as the area is the destination.
    Ordering,
    /// Judging an older model when it has been put in order.
    Ordered,
    /// Asking how many bytes of working area judging a model of a pattern wants.
    Area,
    /// Reading a typed pattern into a pattern file: the pattern is the text, the area the destination.
    Typing,
    /// Judging a model of a typed pattern, which is the text.
    Typed,
}

impl Operation {
    pub const ALL: [Operation; 8] = [
        Operation::Reading,
        Operation::Model,
        Operation::Tableau,
        Operation::Ordering,
        Operation::Ordered,
        Operation::Area,
        Operation::Typing,
        Operation::Typed,
    ];

    /// Those that have a pattern file.
    pub const OF_PATTERNS: [Operation; 5] =
        [Operation::Reading, Operation::Model, Operation::Tableau, Operation::Ordered, Operation::Area];

    /// Those that have a pattern file and nothing else.
    pub const OF_PATTERNS_ALONE: [Operation; 2] = [Operation::Reading, Operation::Area];

    /// Those that have a text.
    pub const OF_TEXTS: [Operation; 2] = [Operation::Typing, Operation::Typed];
}

/// A finding that demand 3 rules out for an input: no pattern has both a closed tableau and a model
/// that meets it.
#[derive(Clone, Copy, Debug, PartialEq, Eq)]
pub enum Never {
    /// A closed tableau of the same pattern is known.
    Met,
    /// A model that meets the same pattern is known.
    Closed,
}

/// Declares the kinds of input with the words that the table shows for them.
macro_rules! kinds {
    ($($kind:ident $words:literal)*) => {
        /// How an input was made.
        #[derive(Clone, Copy, Debug, PartialEq, Eq)]
        pub enum Kind { $($kind),* }

        impl Kind {
            pub const ALL: &[Kind] = &[$(Kind::$kind),*];

            pub fn words(self) -> &'static str {
                match self { $(Kind::$kind => $words),* }
            }
        }
    };
}

kinds! {
    ValidPattern "a valid pattern, read"
    MutatedPattern "a mutated pattern"
    PatternLimit "a pattern at a limit or one over"
    ValidModel "a valid model"
    MutatedModel "a mutated model"
    DisorderedModel "a model with edges out of order"
    ModelLimit "a model at a limit or one over"
    ManyPaths "a model for a pattern of many paths"
    PlannedModel "a planned model"
    MutatedPlannedModel "a mutated planned model"
    WalkedTableau "a random walk of fitting steps"
    WrongStep "a random walk with one wrong step"
    TableauLimit "a tableau at a limit or one over"
    PlannedTableau "a planned tableau"
    MutatedPlannedTableau "a mutated planned tableau"
    OtherName "a planned tableau that asks for another name"
    Exchanged "a proposal handed to another operation"
    Unrelated "unrelated bytes"
    ModelOfClosed "a model for a pattern with a closed tableau"
    TableauOfMet "a tableau for a pattern with a model that meets it"
    OldModel "an older model to be put in order"
    MutatedOldModel "a mutated older model to be put in order"
    OldModelLimit "an older model at a limit or one over, to be put in order"
    ModelInOrder "a model in order to be put in order"
    JudgedOldModel "an older model to be judged when put in order"
    NodesAndPaths "a model for a pattern of so many nodes and paths"
    AreaOfPattern "a pattern of so many nodes and paths, whose area is asked for"
    Text "a text of the grammar"
    SpoiltText "a text with something out of place"
    NumberInText "a text with a number at its limit or beyond"
    TextLimit "a text of a shape, or at a limit or one over"
    JudgedText "a model for a typed pattern"
}

/// One input. The same value serves for one input after another, so that its buffers are kept where they can.
#[derive(Clone, Debug, PartialEq, Eq)]
pub struct Input {
    pub kind: Kind,
    pub operation: Operation,
    /// The pattern file, or the text of one; empty where a model is put in order.
    pub pattern: Vec<u8>,
    /// The model or tableau file; empty where there is a pattern or a text alone.
    pub proposal: Vec<u8>,
    /// The working area, or the destination of what is written.
    pub area: Area,
    pub never: Option<Never>,
}

impl Input {
    /// The file or text that the operation is about.
    pub fn file(&self) -> &[u8] {
        match self.operation {
            Operation::Reading | Operation::Area | Operation::Typing => &self.pattern,
            _ => &self.proposal,
        }
    }

    /// An input to be filled by a generator.
    pub fn blank() -> Input {
        Input {
            kind: Kind::Unrelated,
            operation: Operation::Reading,
            pattern: Vec::new(),
            proposal: Vec::new(),
            area: Area::NONE,
            never: None,
        }
    }
}
