//! The page of a block without a derivation.

use super::key::Key;
use super::label::{ABOVE, Label};
use super::path::MARGIN;
use super::svg::{CHAR, SOFT, Words};
use crate::names::Names;

/// From line to line, from the margin to a side, and what a card has below its lines.
const LINE: f64 = 20.0;
const INDENT: f64 = 44.0;
const BELOW: f64 = 6.0;

pub struct Card<'a> {
    sides: Vec<(&'static str, &'a str)>,
    shows: &'static str,
    said: &'static str,
}

impl<'a> Card<'a> {
    /// The card of a none with these sides.
    pub fn none([left, right]: [&'a str; 2]) -> Card<'a> {
        Card {
            sides: vec![("left", left), ("right", right)],
            shows: "a none",
            said: "no derivation was found within the job's limits",
        }
    }

    /// That of a block that is refused, which has no sides.
    pub fn refused() -> Card<'a> {
        Card {
            sides: Vec::new(),
            shows: "refused by 7",
            said: "FIND would note more terms than there are slots",
        }
    }

    /// The width that its sides need.
    pub fn width(&self) -> f64 {
        let widths = self.sides.iter().map(|(_, side)| side.len() as f64 * CHAR);
        2.0 * MARGIN + INDENT + widths.fold(0.0, f64::max)
    }

    /// The names of the letters in its sides.
    fn key(&self, names: &Names, wide: f64) -> Key<'a> {
        let items = self.sides.iter().flat_map(|(_, side)| side.split(' '));
        Key::new(items, names, wide - 2.0 * MARGIN)
    }

    pub fn height(&self, names: &Names, wide: f64) -> f64 {
        let lines = self.sides.len() + 1;
        ABOVE + LINE * lines as f64 + self.key(names, wide).height() + BELOW
    }

    pub fn draw(&self, label: &Label, names: &Names, wide: f64, out: &mut Vec<String>) {
        label.draw(self.shows, wide, self.height(names, wide), out);
        let words = |x, y, text| Words::at(MARGIN + x, y, text).start();
        let mut y = ABOVE + 10.0;
        for (key, side) in &self.sides {
            out.push(words(0.0, y, key).fill(SOFT).svg());
            out.push(words(INDENT, y, side).mono().svg());
            y += LINE;
        }
        out.push(words(0.0, y, self.said).fill(SOFT).svg());
        self.key(names, wide).draw(y + LINE, out);
    }
}
