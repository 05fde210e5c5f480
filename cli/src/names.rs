//! What the letters stand for, by a file of lines `v0 Orders` and `c0 Prices`. Names are shown to people and never stand in an answer.

use std::collections::BTreeMap;
use std::ffi::OsString;

use crate::failure::{Failure, is_unseen, shown};
use crate::streams::Source;
use crate::term::{Term, is_atom, is_letter};

/// More bytes than a file of names needs.
const MOST_BYTES: usize = 1 << 20;

/// The names of some letters.
#[derive(Debug, Default)]
pub struct Names(BTreeMap<String, String>);

impl Names {
    /// The names in the file, if one is chosen, or why they cannot be had.
    pub fn chosen(file: Option<OsString>) -> Result<Names, Failure> {
        let Some(file) = file else {
            return Ok(Names::default());
        };
        let source = Source::File(file.into());
        let bytes = source.read(MOST_BYTES)?;
        Names::read(&bytes).map_err(|why| Failure(format!("the names in {}: {why}", source.name())))
    }

    /// Reads lines of a letter, a space and its name; blank lines are passed over. Or says what is wrong, and in which line.
    pub fn read(bytes: &[u8]) -> Result<Names, String> {
        let text = text_of(bytes, "the names")?;
        let mut names = Names::default();
        for (index, line) in text.lines().enumerate() {
            let added = names.add(line.trim());
            added.map_err(|why| format!("line {}: {why}", index + 1))?;
        }
        Ok(names)
    }

    fn add(&mut self, line: &str) -> Result<(), String> {
        if line.is_empty() {
            return Ok(());
        }
        let (letter, name) = line.split_once([' ', '\t']).unwrap_or((line, ""));
        let name = name.split_whitespace().collect::<Vec<_>>().join(" ");
        if !is_letter(letter) {
            let letter = "a letter, v0 to v999 or c0 to c99, as in `v0 Orders`";
            return Err(format!("a line begins with {letter}"));
        }
        if name.is_empty() {
            return Err(format!(
                "{letter} has no name; write one behind it, as in `v0 Orders`"
            ));
        }
        if name.chars().any(is_unseen) {
            return Err(format!(
                "the name of {letter} holds a character that cannot be seen; take it out"
            ));
        }
        if is_atom(&name) || name == "+" || name == "*" {
            return Err(format!(
                "{name} is an item of terms and no name; take another"
            ));
        }
        if let Some((other, _)) = self.0.iter().find(|(_, given)| **given == name) {
            return Err(format!(
                "{other} is named {name} too; give each letter a name of its own"
            ));
        }
        match self.0.insert(letter.to_owned(), name) {
            None => Ok(()),
            Some(former) => Err(format!(
                "{letter} is named {former} already; name each letter once"
            )),
        }
    }

    /// The item's name, if it has one.
    pub fn get(&self, item: &str) -> Option<&str> {
        self.0.get(item).map(String::as_str)
    }

    /// The item's name, or the item itself.
    pub fn or_item<'a>(&'a self, item: &'a str) -> &'a str {
        self.get(item).unwrap_or(item)
    }

    /// A side of a job or an answer for people, if there are names: `left: Orders * (North stock + South stock)`.
    pub fn side(&self, key: &str, side: &str) -> Option<String> {
        if self.0.is_empty() {
            return None;
        }
        let spelled = match Term::read(side) {
            Some(term) => self.spell(&term),
            None => {
                let items: Vec<_> = side.split(' ').map(|item| self.or_item(item)).collect();
                shown(&items.join(" "))
            }
        };
        Some(format!("{key}: {spelled}"))
    }

    /// A word of a list for people, if there are names: `word 2 of left: Returns * North stock`.
    pub fn word(&self, key: &str, word: &str) -> Option<String> {
        let letters = word.split(' ').map(|item| self.spell(&Term::Atom(item)));
        let spelled = letters.collect::<Vec<_>>().join(" * ");
        (!self.0.is_empty()).then(|| format!("{key}: {spelled}"))
    }

    /// The term for people: signs between their parts, brackets about each part that is no letter, names for letters. A name that holds
    /// signs or brackets is quoted.
    pub fn spell(&self, term: &Term) -> String {
        match term {
            Term::Atom(item) => match self.or_item(item) {
                name if name.contains(['+', '*', '(', ')', '"']) => format!("\"{name}\""),
                name => name.to_owned(),
            },
            Term::Over(sign, parts) => {
                let [left, right] = parts.each_ref().map(|part| match part {
                    Term::Atom(_) => self.spell(part),
                    Term::Over(..) => format!("({})", self.spell(part)),
                });
                format!("{left} {sign} {right}")
            }
        }
    }
}

/// The bytes as text, without a byte order mark. Or says in which line they are none, and to save `what` they are anew.
pub fn text_of<'a>(bytes: &'a [u8], what: &str) -> Result<&'a str, String> {
    let text = str::from_utf8(bytes).map_err(|error| {
        let before = &bytes[..error.valid_up_to()];
        let line = 1 + before.iter().filter(|&&byte| byte == b'\n').count();
        format!("line {line}: this is no UTF-8 text; save {what} as UTF-8")
    })?;
    Ok(text.strip_prefix('\u{feff}').unwrap_or(text))
}

#[cfg(test)]
mod tests {
    use super::*;

    #[test]
    fn names_stand_for_letters_in_a_spelled_term() {
        let names = Names::read("v0 Orders\r\n\nv1\tNorth stock\nc0 Prices\n".as_bytes()).unwrap();
        let term = Term::read("+ * v0 v1 * v0 + v2 0").unwrap();
        let spelled = "(Orders * North stock) + (Orders * (v2 + 0))";
        assert_eq!(names.spell(&term), spelled);
        assert_eq!(names.get("v2"), None);
        let priced = Term::read("* + v0 v1 * c0 c1").unwrap();
        let spelled = "(Orders + North stock) * (Prices * c1)";
        assert_eq!(names.spell(&priced), spelled);
        let names = Names::read(b"v0 Orders (A + B)\n").unwrap();
        let spelled = "(\"Orders (A + B)\" * v1) + (\"Orders (A + B)\" * (v2 + 0))";
        assert_eq!(names.spell(&term), spelled);
    }

    #[test]
    fn a_line_that_names_nothing_is_told() {
        let told = |bytes: &[u8]| Names::read(bytes).unwrap_err();
        let letter =
            "line 2: a line begins with a letter, v0 to v999 or c0 to c99, as in `v0 Orders`";
        for line in ["Orders v1", "v1000 A", "c100 A", "c00 A", "c A", "C0 A"] {
            assert_eq!(told(format!("v0 Orders\n{line}\n").as_bytes()), letter);
        }
        assert!(told(b"v0 \n").starts_with("line 1: v0 has no name"));
        assert!(told(b"v0 A\nv0 B\n").starts_with("line 2: v0 is named A already"));
        assert!(told(b"v0 A\x1b[2J\n").starts_with("line 1: the name of v0 holds a character"));
        assert!(told("v0 A\u{202e}B\n".as_bytes()).starts_with("line 1: the name of v0 holds"));
        assert!(
            told("v0 A\nv1 A\u{200b}\n".as_bytes()).starts_with("line 2: the name of v1 holds")
        );
        assert!(told(b"v0 A  B\nv1 A B\n").starts_with("line 2: v0 is named A B too"));
        assert!(told(b"v0 A\nv1 A\n").starts_with("line 2: v0 is named A too"));
        assert!(told(b"v0 A\nc0 A\n").starts_with("line 2: v0 is named A too"));
        assert!(told(b"c0 A\nc0 B\n").starts_with("line 2: c0 is named A already"));
        for item in ["0", "1", "v7", "c7", "+", "*"] {
            let why = told(format!("v0 {item}\n").as_bytes());
            assert!(
                why.starts_with(&format!("line 1: {item} is an item of terms")),
                "{why}"
            );
        }
        assert!(told(b"v0 A\n\nv1 \xff\n").starts_with("line 3: this is no UTF-8"));
    }
}
