//! WORDS' answer read back: its lists and, where it says no, its last line.

use super::job::{line, number};

/// What an answer says.
#[derive(Clone, Debug, Eq, PartialEq)]
pub struct Said<'a> {
    /// The words as they are printed, the smaller list first.
    pub lists: [Vec<&'a str>; 2],
    /// The number of the last line.
    pub place: Option<usize>,
}

/// The first line of an answer.
pub fn first_line(answer: &[u8]) -> &[u8] {
    let mut lines = answer.split_inclusive(|&byte| byte == b'\n');
    lines.next().unwrap_or_default()
}

/// The answer without its last line, and that line, where it says no. Another answer has no such line.
pub fn last_line_off(answer: &[u8]) -> (&[u8], &[u8]) {
    if !answer.starts_with(b"same=no\n") {
        return (answer, b"");
    }
    let mut lines = answer.split_inclusive(|&byte| byte == b'\n');
    let last = lines.next_back().unwrap_or_default();
    answer.split_at(answer.len() - last.len())
}

/// Reads an answer.
pub fn said(answer: &[u8]) -> Said<'_> {
    let (mut rest, mut last) = last_line_off(answer);
    let [same, left, right] = ["same=", "left=", "right="].map(|key| {
        let value = line(&mut rest, key).unwrap_or_else(|| panic!("WORDS prints {key}"));
        std::str::from_utf8(value).expect("answers are ASCII")
    });
    let place = match same {
        "yes" => None,
        "no" => line(&mut last, "differ=").and_then(number),
        _ => panic!("the words are the same or not: {same}"),
    };
    assert_eq!(place.is_some(), same == "no", "a no ends with the place");
    assert!(rest.is_empty() && last.is_empty(), "no line follows");
    Said {
        lists: [left, right].map(printed),
        place: place.map(|place| place as usize),
    }
}

/// The words of a list's line.
fn printed(list: &str) -> Vec<&str> {
    match list {
        "0" => Vec::new(),
        _ => list.split(';').collect(),
    }
}
