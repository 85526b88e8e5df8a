//! What somebody may have meant.

/// How many letters must be changed, put in, taken out, or changed with their neighbour to make one word of another.
fn distance(a: &str, b: &str) -> usize {
    let (a, b): (Vec<char>, Vec<char>) = (a.chars().collect(), b.chars().collect());
    // a row for each letter of a: the distance of what is in front of it to each beginning of b
    let mut rows = vec![(0..=b.len()).collect::<Vec<usize>>()];
    for i in 1..=a.len() {
        let mut row = vec![i];
        for j in 1..=b.len() {
            let differs = usize::from(a[i - 1] != b[j - 1]);
            let mut least = (rows[i - 1][j - 1] + differs).min(rows[i - 1][j] + 1).min(row[j - 1] + 1);
            if i > 1 && j > 1 && a[i - 1] == b[j - 2] && a[i - 2] == b[j - 1] {
                least = least.min(rows[i - 2][j - 2] + 1);
            }
            row.push(least);
        }
        rows.push(row);
    }
    rows[a.len()][b.len()]
}

/// The nearest of the names, where one is near: two letters off at most, and no more than half of them; or the only
/// one that begins so.
pub fn nearest<'a>(word: &str, names: impl IntoIterator<Item = &'a str>) -> Option<&'a str> {
    let names: Vec<&str> = names.into_iter().collect();
    let letters = word.trim_start_matches('-').chars().count();
    let near = names.iter().map(|name| (distance(word, name), *name)).min();
    if let Some((_, name)) = near.filter(|(distance, _)| *distance <= 2 && 2 * distance <= letters) {
        return Some(name);
    }
    let mut begun = names.into_iter().filter(|name| letters > 0 && name.starts_with(word));
    begun.next().filter(|_| begun.next().is_none())
}

pub fn did_you_mean(name: Option<&str>) -> String {
    name.map_or(String::new(), |name| format!("; did you mean {name}?"))
}

#[cfg(test)]
mod tests {
    use super::*;

    #[test]
    fn what_is_near() {
        assert_eq!(["clean", "claen", "clan", "cleans", "wash"].map(|word| distance(word, "clean")), [0, 1, 1, 1, 5]);
        let names = ["--lag", "--left", "--model", "--out"];
        let near = |word: &str| nearest(word, names);
        assert_eq!(near("--lagg"), Some("--lag"));
        assert_eq!(near("--modle"), Some("--model"));
        assert_eq!(near("--mo"), Some("--model"));
        assert_eq!((near("--l"), near("--"), near("--xx"), near("--wash")), (None, None, None, None));
    }
}
