//! How a call of the command ends, and what it says to people.

use std::io::{Error, ErrorKind, Write, stderr};

/// The exit status; of several jobs the highest.
#[derive(Clone, Copy, Debug, Eq, Ord, PartialEq, PartialOrd)]
pub enum Status {
    /// Every job was answered.
    Answered = 0,
    /// A job was refused.
    Refused = 1,
    /// Something could not be read or written, or the call was wrong.
    Failed = 2,
}

/// Why the command ends with `Status::Failed`: a sentence without its full stop.
#[derive(Debug, Eq, PartialEq)]
pub struct Failure(pub String);

/// Says a line on standard error. Where that cannot be written, the status alone tells.
pub fn say(line: &str) {
    let _ = stderr().write_all(spoken(&[line]).as_bytes());
}

/// The lines as they are said: in one text, so that calls side by side do not tear each other's.
pub fn spoken(lines: &[impl AsRef<str>]) -> String {
    let line = |line: &_| format!("puvainy: {}\n", AsRef::as_ref(line));
    lines.iter().map(line).collect()
}

/// The error in plain words.
pub fn plain(error: &Error) -> String {
    match error.kind() {
        ErrorKind::NotFound => "there is no such file".to_owned(),
        ErrorKind::IsADirectory => "it is a directory".to_owned(),
        ErrorKind::PermissionDenied => "it is not allowed".to_owned(),
        ErrorKind::BrokenPipe => "its reader is gone".to_owned(),
        ErrorKind::StorageFull => "there is no space left".to_owned(),
        ErrorKind::NotADirectory => "a part of its name is no directory".to_owned(),
        ErrorKind::InvalidFilename => "its name is too long".to_owned(),
        ErrorKind::WouldBlock => "it was set not to wait, and is not ready".to_owned(),
        ErrorKind::FileTooLarge => "it would become too large".to_owned(),
        _ => error.to_string(),
    }
}

/// Whether the character changes how a text is shown without being seen itself.
pub fn is_unseen(character: char) -> bool {
    let is_mark = matches!(
        character,
        '\u{ad}' | '\u{61c}' | '\u{200b}'..='\u{200f}' | '\u{2028}'..='\u{202e}' | '\u{2060}'..='\u{206f}' | '\u{feff}'
    );
    is_mark || character.is_control()
}

/// The text with nothing in it that a terminal would obey or that would break a line.
pub fn shown(text: &str) -> String {
    let mut shown = String::new();
    for character in text.chars() {
        if is_unseen(character) {
            shown.extend(character.escape_default());
        } else {
            shown.push(character);
        }
    }
    shown
}

/// The beginning of the text, shown so.
pub fn brief(text: &str) -> String {
    const LONG: usize = 24;
    let begin: String = text.chars().take(LONG).collect();
    let rest = if begin.len() < text.len() { "…" } else { "" };
    shown(&begin) + rest
}

/// The words as `a, b or c`.
pub fn joined(words: &[impl AsRef<str>], or: &str) -> String {
    let words: Vec<_> = words.iter().map(AsRef::as_ref).collect();
    match &words[..] {
        [others @ .., last] if !others.is_empty() => format!("{} {or} {last}", others.join(", ")),
        _ => words.concat(),
    }
}

/// The numbers as `1, 2 and 4`.
pub fn counted(numbers: impl IntoIterator<Item = usize>) -> String {
    let numbers: Vec<_> = numbers
        .into_iter()
        .map(|number| number.to_string())
        .collect();
    joined(&numbers, "and")
}

#[cfg(test)]
mod tests {
    use super::*;

    #[test]
    fn the_highest_status_counts() {
        assert_eq!(Status::Refused.max(Status::Answered), Status::Refused);
        assert_eq!(Status::Refused.max(Status::Failed), Status::Failed);
        assert_eq!(
            [0, 1, 2],
            [Status::Answered, Status::Refused, Status::Failed].map(|s| s as u8)
        );
    }

    #[test]
    fn a_long_text_is_cut() {
        assert_eq!(brief(&"v".repeat(24)), "v".repeat(24));
        assert_eq!(brief(&"v".repeat(25)), "v".repeat(24) + "…");
    }

    #[test]
    fn a_shown_text_obeys_nothing() {
        assert_eq!(
            shown("a\nb\u{1b}[2J\u{e9}\u{202e}"),
            "a\\nb\\u{1b}[2J\u{e9}\\u{202e}"
        );
    }
}
