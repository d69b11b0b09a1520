//! The word that was meant, where a word is misspelt.

/// How many letters must be put in, left out or exchanged to make one word the other.
fn distance(one: &str, other: &str) -> usize {
    let other: Vec<char> = other.chars().collect();
    let mut row: Vec<usize> = (0..=other.len()).collect();
    for (above, letter) in one.chars().enumerate() {
        let mut corner = above;
        row[0] = above + 1;
        for (at, same) in other.iter().map(|b| *b == letter).enumerate() {
            let exchanged = corner + usize::from(!same);
            corner = row[at + 1];
            row[at + 1] = exchanged.min(corner + 1).min(row[at] + 1);
        }
    }
    row[other.len()]
}

/// A word without its dashes, in small letters.
pub fn stem(word: &str) -> String {
    word.trim_start_matches('-').to_lowercase()
}

/// The nearest of some words, if it differs in at most two letters and in under half of its own; dashes
/// before the words do not count.
pub fn nearest<'a>(given: &str, words: impl IntoIterator<Item = &'a str>) -> Option<&'a str> {
    let given = stem(given);
    let far = |word: &&str| distance(&given, &stem(word));
    let near = words.into_iter().min_by_key(far)?;
    let distance = far(&near);
    (distance <= 2 && distance * 2 < stem(near).chars().count()).then_some(near)
}

/// The word that is given but for its dashes and its case, or else all that it is a beginning of.
pub fn begun<'a>(given: &str, words: &[&'a str]) -> Vec<&'a str> {
    let given = stem(given);
    let same = words.iter().find(|word| stem(word) == given);
    let begin = |word: &&&str| !given.is_empty() && stem(word).starts_with(&given);
    match same {
        Some(same) => vec![same],
        None => words.iter().filter(begin).copied().collect(),
    }
}

/// The words that may have been meant: those that are begun, or else the nearest.
pub fn meant<'a>(given: &str, words: &[&'a str]) -> Vec<&'a str> {
    let begun = begun(given, words);
    match begun[..] {
        [] => nearest(given, words.iter().copied()).into_iter().collect(),
        _ => begun,
    }
}

/// Words as a sentence lists them: one, two and three.
pub fn listed<W: AsRef<str>>(words: &[W], last: &str) -> String {
    let words: Vec<&str> = words.iter().map(AsRef::as_ref).collect();
    match words.split_last() {
        Some((end, [])) => end.to_string(),
        Some((end, most)) => format!("{} {last} {end}", most.join(", ")),
        None => String::new(),
    }
}

/// The end of a message about a word that there is not: what may have been meant, or where all are told.
pub fn did_you_mean(meant: &[&str], all: &str) -> String {
    match meant {
        [] => format!("see {all}"),
        _ => format!("did you mean {}?", listed(meant, "or")),
    }
}

#[cfg(test)]
mod tests {
    use super::*;

    /// Catches a letter that is counted twice or not at all, at either end and in the middle.
    #[test]
    fn distances_by_hand() {
        for (one, other, expected) in [
            ("", "", 0),
            ("", "net", 3),
            ("net", "", 3),
            ("ladder", "ladder", 0),
            ("lader", "ladder", 1),
            ("adder", "ladder", 1),
            ("ladders", "ladder", 1),
            ("kitten", "sitting", 3),
            ("no", "on", 2),
        ] {
            assert_eq!(distance(one, other), expected, "{one} {other}");
        }
    }

    /// Catches a word that is far but named all the same, and a near one that is not.
    #[test]
    fn the_nearest_word_is_named_if_it_is_near() {
        let words = ["net", "report", "--currency", "--all"];
        for (given, expected) in [
            ("reprot", Some("report")),
            ("nett", Some("net")),
            ("--curency", Some("--currency")),
            ("--al", Some("--all")),
            ("nnn", None),
            ("-x", None),
            ("charge", None),
            ("rexxxt", None),
        ] {
            assert_eq!(nearest(given, words), expected, "{given}");
        }
    }

    /// Catches a beginning that is not told, one of several, and one that hides the word itself.
    #[test]
    fn beginnings_are_told_whatever_their_dashes_and_case() {
        let words = [
            "--json",
            "--currency",
            "--currencies",
            "--all",
            "--all-of",
            "-o",
        ];
        for (given, expected) in [
            ("-json", &["--json"][..]),
            ("--JSON", &["--json"]),
            ("json", &["--json"]),
            ("--js", &["--json"]),
            ("--curr", &["--currency", "--currencies"]),
            ("--all", &["--all"]),
            ("--o", &["-o"]),
            ("--curency", &["--currency"]),
            ("--jsonl", &["--json"]),
            ("--", &[]),
            ("--x", &[]),
        ] {
            assert_eq!(meant(given, &words), expected, "{given}");
        }
        assert_eq!(begun("--curency", &words), [""; 0]);
    }

    #[test]
    fn words_are_listed() {
        assert_eq!(listed(&["a"], "and"), "a");
        assert_eq!(listed(&["a", "b"], "or"), "a or b");
        assert_eq!(listed(&["a", "b", "c"], "and"), "a, b and c");
        assert_eq!(did_you_mean(&["a", "b"], "c"), "did you mean a or b?");
        assert_eq!(did_you_mean(&[], "c"), "see c");
    }
}
