//! Edge records that don't rise, made of records that do.

use oracle::random::Random;

/// Puts edges of a model file out of order, and now and then one out of range besides. Whether they are out of
/// order afterwards: they aren't if there are fewer than two, or by chance.
pub fn disorder(random: &mut Random, file: &mut [u8]) -> bool {
    let (nodes, names) = (file[5], file[6] as usize);
    let (edges, _) = file[9 + 12 * nodes as usize + 2 * names..].as_chunks_mut();
    if edges.len() < 2 {
        return false;
    }
    let place = random.between(1, edges.len() - 1);
    match random.below(8) {
        0 => edges.reverse(),
        1 => random.shuffle(edges),
        2 => edges.swap(place - 1, place),
        3 => edges[random.below(place)..=place].rotate_left(1),
        _ => fall(random, edges, nodes, place),
    }
    if random.once_in(3) {
        let spoilt = if random.once_in(2) { place } else { random.below(edges.len()) };
        spoil(random, &mut edges[spoilt], nodes);
    }
    !edges.is_sorted_by(|one, next| one < next)
}

/// Puts a field of the record out of range.
pub fn spoil(random: &mut Random, record: &mut [u8; 3], nodes: u8) {
    let field = random.below(3);
    record[field] = random.pick(&[limits(nodes)[field], 255]);
}

/// Makes the record one that doesn't come after the record before it, from which it has its fields: a repeat, or
/// one of them lower and those behind it any.
pub fn fall(random: &mut Random, edges: &mut [[u8; 3]], nodes: u8, place: usize) {
    let mut record = edges[place - 1];
    let lower = random.below(4);
    if lower < 3 && record[lower] > 0 {
        record[lower] = random.below(record[lower].into()) as u8;
        for (field, limit) in record.iter_mut().zip(limits(nodes)).skip(lower + 1) {
            *field = random.below(limit.into()) as u8;
        }
    }
    edges[place] = record;
}

/// The first value out of range of from, axis and to.
fn limits(nodes: u8) -> [u8; 3] {
    [nodes, 8, nodes]
}
