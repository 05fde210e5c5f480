//! What is said of an answer of WORDS that says no: the word at which its lists part, with names.

use crate::names::Names;

/// Both lists.
const LISTS: [&str; 2] = ["left", "right"];

/// The sentences on the answer. Without names there are none: the answer has the words in letters.
pub fn sentences(name: &str, answer: &[u8], names: &Names) -> Vec<String> {
    let answer = str::from_utf8(answer).unwrap_or_default();
    let place = value(answer, "differ").and_then(|place| place.parse().ok());
    let Some(place) = place else {
        return Vec::new();
    };
    let mut told = format!("{name}: no: the lists part at word {place}, counted from 0");
    let mut words = Vec::new();
    for key in LISTS {
        match value(answer, key).and_then(|list| word(list, place)) {
            Some(word) => words.extend(names.word(&format!("word {place} of {key}"), word)),
            None => told += &format!(", where {key} ends"),
        }
    }
    if !words.is_empty() {
        words.insert(0, told);
    }
    words
}

/// What the line with this key holds.
fn value<'a>(answer: &'a str, key: &str) -> Option<&'a str> {
    let mut lines = answer.lines().filter_map(|line| line.split_once('='));
    lines.find_map(|(name, value)| (name == key).then_some(value))
}

/// The list's word at the place, if it has one there; no words are `0`.
fn word(list: &str, place: usize) -> Option<&str> {
    let word = list.split(';').nth(place);
    word.filter(|word| *word != "0")
}

#[cfg(test)]
mod tests {
    use super::*;

    /// What is said of this answer, with these names.
    fn said(answer: &str, names: &str) -> Vec<String> {
        let names = Names::read(names.as_bytes()).unwrap();
        sentences("a.job", answer.as_bytes(), &names)
    }

    const NAMES: &str = "v0 Orders\nv4 Archive\nc0 Prices (net)\n";

    #[test]
    fn both_words_are_named_where_the_lists_part() {
        for (answer, place, left, right) in [
            (
                "left=v0 v1;v0 v4 c0\nright=v0 v1;v4 v0;v4 v0\ndiffer=1\n",
                1,
                "Orders * Archive * \"Prices (net)\"",
                "Archive * Orders",
            ),
            ("left=1;v0\nright=v0\ndiffer=0\n", 0, "1", "Orders"),
            ("left=v2;v2\nright=v2;c1\ndiffer=1\n", 1, "v2", "c1"),
        ] {
            let due = [
                format!("a.job: no: the lists part at word {place}, counted from 0"),
                format!("word {place} of left: {left}"),
                format!("word {place} of right: {right}"),
            ];
            assert_eq!(said(&format!("same=no\n{answer}"), NAMES), due);
        }
    }

    #[test]
    fn a_list_that_ends_where_they_part_is_told() {
        for (lists, place, right) in [
            ("left=v0\nright=v0;v0", 1, "Orders"),
            ("left=1;1\nright=1;1;v4 v4;v5", 2, "Archive * Archive"),
            ("left=0\nright=1;v0", 0, "1"),
        ] {
            let due = [
                format!(
                    "a.job: no: the lists part at word {place}, counted from 0, where left ends"
                ),
                format!("word {place} of right: {right}"),
            ];
            assert_eq!(
                said(&format!("same=no\n{lists}\ndiffer={place}\n"), NAMES),
                due
            );
        }
    }

    #[test]
    fn nothing_is_said_without_names_and_where_the_words_are_the_same() {
        let none: [String; 0] = [];
        assert_eq!(said("same=no\nleft=v0\nright=v1\ndiffer=0\n", ""), none);
        assert_eq!(said("same=yes\nleft=v0\nright=v0\n", NAMES), none);
    }
}
