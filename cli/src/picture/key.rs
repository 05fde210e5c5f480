//! The key of a page: the letters that occur on it, with their names.

use std::collections::BTreeSet;

use super::path::MARGIN;
use super::svg::{self, CHAR, SOFT, Words};
use crate::names::Names;
use crate::term::ranks;

/// The most lines of a key.
const MOST: usize = 6;
/// From line to line, above the first line, from a letter to its name, from name to letter.
const LINE: f64 = 18.0;
const ABOVE: f64 = 6.0;
const SPACE: f64 = 7.0;
const BETWEEN: f64 = 24.0;
const SIZE: f64 = 12.0;

/// A letter and its name, at x.
struct Entry<'a> {
    x: f64,
    letter: &'a str,
    name: String,
}

/// The entries, line by line.
pub struct Key<'a>(Vec<Vec<Entry<'a>>>);

impl<'a> Key<'a> {
    /// The key of the items in so much width. Each entry has a whole line if need be; where that makes too many lines, an entry has at most a half, a third and so on.
    pub fn new(items: impl Iterator<Item = &'a str>, names: &Names, width: f64) -> Key<'a> {
        let named = items.filter(|item| names.get(item).is_some());
        let letters: BTreeSet<_> = named.map(|item| (ranks(item), item)).collect();
        let mut share = 1.0;
        loop {
            let most = (width + BETWEEN) / share - BETWEEN;
            let entries = letters
                .iter()
                .map(|&(_, letter)| (letter, names.or_item(letter)));
            let key = Key::broken(entries, most, width);
            if key.0.len() <= MOST || share as usize > letters.len() {
                return key;
            }
            share += 1.0;
        }
    }

    fn broken<'n>(
        entries: impl Iterator<Item = (&'a str, &'n str)>,
        most: f64,
        width: f64,
    ) -> Key<'a> {
        let mut lines: Vec<Vec<Entry>> = Vec::new();
        let mut x = width;
        for (letter, name) in entries {
            let name = svg::cut(name, SIZE, most - indent(letter));
            let wide = entry_width(letter, &name);
            if lines.is_empty() || x + wide > width {
                lines.push(Vec::new());
                x = 0.0;
            }
            lines
                .last_mut()
                .expect("a line was begun")
                .push(Entry { x, letter, name });
            x += wide + BETWEEN;
        }
        Key(lines)
    }

    pub fn height(&self) -> f64 {
        match self.0.len() {
            0 => 0.0,
            lines => ABOVE + LINE * lines as f64,
        }
    }

    pub fn draw(&self, top: f64, out: &mut Vec<String>) {
        for (index, line) in self.0.iter().enumerate() {
            let y = top + LINE * index as f64;
            for Entry { x, letter, name } in line {
                let x = MARGIN + x;
                out.push(Words::at(x, y, letter).start().mono().svg());
                out.push(
                    Words::at(x + indent(letter), y, name)
                        .start()
                        .fill(SOFT)
                        .held()
                        .svg(),
                );
            }
        }
    }
}

/// From where an entry begins to where its name does.
fn indent(letter: &str) -> f64 {
    letter.len() as f64 * CHAR + SPACE
}

/// The width of an entry.
pub fn entry_width(letter: &str, name: &str) -> f64 {
    indent(letter) + svg::width(name, SIZE)
}
