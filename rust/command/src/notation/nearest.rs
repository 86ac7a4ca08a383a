//! The nearest of some names to one that is misspelt.

/// The name that the fewest changes make of this one, if they are few for its length.
pub fn nearest<'n>(word: &str, names: impl IntoIterator<Item = &'n str>) -> Option<&'n str> {
    let most = 1 + word.chars().count() / 4;
    let rated = names.into_iter().map(|name| (changes(word, name), name));
    rated
        .filter(|&(count, name)| count <= most && count < name.chars().count())
        .min_by_key(|&(count, _)| count)
        .map(|(_, name)| name)
}

/// How many letters must be put in, left out, replaced or swapped with their neighbours.
fn changes(one: &str, other: &str) -> usize {
    let one: Vec<char> = one.to_lowercase().chars().collect();
    let other: Vec<char> = other.to_lowercase().chars().collect();
    let mut table = vec![vec![0; other.len() + 1]; one.len() + 1];
    for i in 0..=one.len() {
        for j in 0..=other.len() {
            table[i][j] = match (i, j) {
                (0, _) => j,
                (_, 0) => i,
                _ => {
                    let replaced = table[i - 1][j - 1] + usize::from(one[i - 1] != other[j - 1]);
                    let least = replaced.min(table[i - 1][j] + 1).min(table[i][j - 1] + 1);
                    let swapped = i > 1 && j > 1 && one[i - 1] == other[j - 2] && one[i - 2] == other[j - 1];
                    if swapped {
                        least.min(table[i - 2][j - 2] + 1)
                    } else {
                        least
                    }
                }
            };
        }
    }
    table[one.len()][other.len()]
}

#[cfg(test)]
mod tests {
    use super::*;

    #[test]
    fn few_changes_only() {
        assert_eq!(nearest("ot", ["at", "out"]), Some("at"));
        assert_eq!(nearest("volmue", ["volume", "shelf"]), Some("volume"));
        assert_eq!(nearest("Lend", ["lend"]), Some("lend"));
        assert_eq!(nearest("reader", ["volume", "shelf"]), None);
        assert_eq!(nearest("x", ["a", "b"]), None);
    }
}
