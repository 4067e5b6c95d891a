//! Random texts of the grammar of typed patterns, and small models with the numbers that stand in them.

use oracle::model::{Model, Node};
use oracle::random::Random;

const PROPERTIES: [usize; 4] = [0, 1, 2, 31];
const NAMES: [usize; 4] = [0, 1, 12, 127];
const AXES: [usize; 4] = [0, 0, 1, 7];
const CHANNELS: [usize; 3] = [0, 0, 3];

/// A node text of at most this depth.
pub fn node(random: &mut Random, depth: usize) -> String {
    let deeper = depth.saturating_sub(1);
    match random.below(if depth == 0 { 2 } else { 9 }) {
        0 => format!("p{}", random.pick(&PROPERTIES)),
        1 => format!("n{}", random.pick(&NAMES)),
        2 => format!("!{}", node(random, deeper)),
        3 => format!("({}&{})", node(random, deeper), node(random, deeper)),
        4 => format!("({}|{})", node(random, deeper), node(random, deeper)),
        5 => format!("<{}>{}", random.pick(&AXES), node(random, deeper)),
        _ => format!(
            "[{}{}{}{}]",
            row(random, deeper),
            random.pick(&["=", "#"]),
            random.pick(&CHANNELS),
            row(random, deeper)
        ),
    }
}

/// A row whose nodes and braces have at most this depth.
pub fn row(random: &mut Random, depth: usize) -> String {
    (0..random.below(4)).map(|_| part(random, depth)).collect()
}

fn part(random: &mut Random, depth: usize) -> String {
    let deeper = depth.saturating_sub(1);
    match random.below(if depth == 0 { 3 } else { 6 }) {
        0 | 1 => format!("/{}", random.pick(&AXES)),
        2 => format!("@{}", random.pick(&NAMES)),
        3 => format!("?{}", node(random, deeper)),
        _ => format!("{{{}|{}}}", row(random, deeper), row(random, deeper)),
    }
}

/// A model of up to five nodes, all names listed.
pub fn small_model(random: &mut Random) -> Model {
    let count = random.between(1, 5);
    let node = |random: &mut Random| Node {
        properties: random.number() as u32,
        values: [random.below(3) as u16, 0, 0, random.below(2) as u16],
    };
    let edge = |random: &mut Random| {
        (random.below(count) as u8, random.pick(&AXES) as u8, random.below(count) as u8)
    };
    let nodes = (0..count).map(|_| node(random)).collect();
    let names = NAMES.map(|name| (name as u8, random.below(count) as u8)).to_vec();
    let edges = (0..random.below(8)).map(|_| edge(random)).collect();
    Model { nodes, names, edges }
}
