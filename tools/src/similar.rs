//! What a mistyped word may have meant.

use std::ffi::OsStr;

/// `: did you mean 'judge'?` for a word that is nearly one of the known ones; nothing for any other.
pub fn hint(word: &OsStr, known: impl Iterator<Item = &'static str>) -> String {
    let word = word.to_string_lossy().to_lowercase();
    match nearest(&word, known) {
        Some(meant) => format!(": did you mean '{meant}'?"),
        None => String::new(),
    }
}

/// The known word that is nearest, if the word is a beginning of it or at most a third of its letters away.
fn nearest(word: &str, known: impl Iterator<Item = &'static str>) -> Option<&'static str> {
    let away = |known: &str| match distance(word, known) {
        _ if word.len() > 1 && known.starts_with(word) => 0,
        distance => distance,
    };
    let near = known.map(|known| (away(known), known)).min_by_key(|&(away, _)| away)?;
    (near.0 <= near.1.len() / 3).then_some(near.1)
}

/// How many letters must be put in, left out, replaced or exchanged with their neighbour to make one word of the other.
fn distance(one: &str, other: &str) -> usize {
    let (one, other): (Vec<char>, Vec<char>) = (one.chars().collect(), other.chars().collect());
    let mut rows = vec![(0..=other.len()).collect::<Vec<usize>>()];
    for i in 1..=one.len() {
        let mut row = vec![i];
        for j in 1..=other.len() {
            let replaced = rows[i - 1][j - 1] + usize::from(one[i - 1] != other[j - 1]);
            let mut least = replaced.min(rows[i - 1][j] + 1).min(row[j - 1] + 1);
            if i > 1 && j > 1 && one[i - 1] == other[j - 2] && one[i - 2] == other[j - 1] {
                least = least.min(rows[i - 2][j - 2] + 1);
            }
            row.push(least);
        }
        rows.push(row);
    }
    rows[one.len()][other.len()]
}

#[cfg(test)]
mod tests {
    use super::*;

    #[test]
    fn distances() {
        for (one, other, wanted) in [
            ("", "", 0),
            ("judge", "judge", 0),
            ("jugde", "judge", 1),
            ("jude", "judge", 1),
            ("oder", "order", 1),
        ] {
            assert_eq!(distance(one, other), wanted, "{one} {other}");
        }
        assert_eq!(distance("", "plan"), 4);
        assert_eq!(distance("plan", "judge"), 5);
    }

    #[test]
    fn the_nearest_of_those_that_are_near() {
        let known = || ["judge", "type", "explain", "plan", "order", "help", "-o"].into_iter();
        for (word, meant) in [
            ("jugde", Some("judge")),
            ("judges", Some("judge")),
            ("explian", Some("explain")),
            ("ex", Some("explain")),
            ("paln", Some("plan")),
            ("tpye", Some("type")),
            ("sort", None),
            ("-e", None),
            ("x", None),
            ("", None),
        ] {
            assert_eq!(nearest(word, known()), meant, "{word}");
        }
    }
}
