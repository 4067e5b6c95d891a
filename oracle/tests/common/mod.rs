//! Files written byte by byte for the tests, and the samples of document 01's bench readings.
#![allow(dead_code, reason = "each test file uses its own part")]

pub mod texts;

/// A pattern file: entries are kind, x, y, z.
pub fn pattern(entries: &[[u8; 4]]) -> Vec<u8> {
    let mut bytes = vec![b'P', b'A', b'T', 1, 0, entries.len() as u8];
    bytes.extend(entries.concat());
    bytes
}

/// A step: rule, P, Q, argument.
pub type Step = (u8, u16, u16, u8);

/// A tableau file.
pub fn tableau(start: u8, steps: &[Step]) -> Vec<u8> {
    let mut bytes = vec![b'T', b'A', b'B', 1, 0, start];
    bytes.extend((steps.len() as u16).to_le_bytes());
    for &(rule, p, q, argument) in steps {
        bytes.push(rule);
        bytes.extend(p.to_le_bytes());
        bytes.extend(q.to_le_bytes());
        bytes.push(argument);
    }
    bytes
}

/// A model file: nodes are properties and channel values, names are (name, node), edges (from, axis, to).
pub fn model(nodes: &[(u32, [u16; 4])], names: &[[u8; 2]], edges: &[[u8; 3]]) -> Vec<u8> {
    let mut bytes = vec![b'D', b'A', b'T', 1, 0, nodes.len() as u8, names.len() as u8];
    bytes.extend((edges.len() as u16).to_le_bytes());
    for (properties, values) in nodes {
        bytes.extend(properties.to_le_bytes());
        bytes.extend(values.map(u16::to_le_bytes).concat());
    }
    bytes.extend(names.concat());
    bytes.extend(edges.concat());
    bytes
}

/// A node without properties, its value on channel 0 given.
pub fn plain(value: u16) -> (u32, [u16; 4]) {
    (0, [value, 0, 0, 0])
}

/// Reading A.
pub const ENTRIES_A: [[u8; 4]; 4] = [[1, 0, 0, 0], [5, 0, 0, 0], [3, 1, 0, 0], [4, 1, 2, 0]];
pub const STEPS_A: [Step; 3] = [(2, 0, 0, 0), (1, 2, 0, 0), (21, 1, 3, 0)];

/// Reading D.
pub const ENTRIES_D: [[u8; 4]; 6] =
    [[1, 0, 0, 0], [1, 1, 0, 0], [4, 0, 1, 0], [3, 2, 0, 0], [4, 0, 3, 0], [4, 1, 4, 0]];
pub const STEPS_D: [Step; 6] =
    [(2, 0, 0, 0), (2, 2, 0, 0), (1, 4, 0, 0), (3, 5, 0, 0), (21, 3, 6, 0), (21, 1, 6, 0)];

/// Reading G, forward and reverse settings.
pub const ENTRIES_G: [[u8; 4]; 5] =
    [[8, 0, 255, 0], [8, 1, 255, 0], [6, 0, 0, 1], [7, 0, 0, 1], [4, 2, 3, 0]];

/// Reading G's model.
pub fn model_g() -> Vec<u8> {
    model(&[plain(0), plain(10), plain(10), plain(20)], &[], &[[0, 0, 1], [0, 1, 2], [0, 1, 3]])
}

/// Reading H: not same and not differ over G's paths.
pub const ENTRIES_H: [[u8; 4]; 7] =
    [[8, 0, 255, 0], [8, 1, 255, 0], [6, 0, 0, 1], [7, 0, 0, 1], [3, 2, 0, 0], [3, 3, 0, 0], [4, 4, 5, 0]];

/// The bench program's line for a model, with an area that is just long enough.
pub fn model_line(pattern: &[u8], model: &[u8]) -> String {
    let mut area = vec![0xA5; oracle::model::area_wanted(pattern)];
    oracle::model::judge(pattern, model, &mut area).to_string()
}

/// The bench program's line for a tableau, with an area that is just long enough.
pub fn tableau_line(pattern: &[u8], tableau: &[u8]) -> String {
    oracle::tableau::judge(pattern, tableau, &mut [0xA5; 8192]).to_string()
}

/// `read` and the number of entries, or the refusal.
pub fn read_line(pattern: &[u8]) -> String {
    oracle::pattern::read(pattern).to_string()
}

/// Judging a model or a tableau: pattern, proposal, working area.
pub type Judge = fn(&[u8], &[u8], &mut [u8]) -> oracle::finding::Finding;

/// Judges with an area of this length that holds no zero: the line, and how many first bytes become zero
/// while the rest stays as it was.
pub fn check_area(judge: Judge, files: (&[u8], &[u8]), length: usize, line: &str, zeroed: usize) {
    let before: Vec<u8> = (0..length).map(|at| at as u8 | 1).collect();
    let mut area = before.clone();
    assert_eq!(judge(files.0, files.1, &mut area).to_string(), line);
    assert!(area[..zeroed].iter().all(|&byte| byte == 0), "{line}, area {length}: the first bytes are zero");
    assert_eq!(area[zeroed..], before[zeroed..], "{line}, area {length}: the rest is unchanged");
}
