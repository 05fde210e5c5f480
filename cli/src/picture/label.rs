//! What a page is called, and its frame with that above it.

use super::path::MARGIN;
use super::svg::{self, BOLD, BOLDER, FRAME, PAPER, Words, number};

/// The height of a page's heading, and the size of its letters.
pub const ABOVE: f64 = 54.0;
const SIZE: f64 = 16.0;

pub struct Label<'a> {
    /// The picture's name.
    pub title: &'a str,
    /// Which right side's the page is, as in `, right 2 of 3`; nothing if there is one.
    pub right: String,
    /// What tells the page from the others, as in `, page 2 of 5`; nothing if there are none.
    pub page: String,
}

impl Label<'_> {
    /// Draws a page's frame, with the heading, in which a title that is too long is cut.
    pub fn draw(&self, shows: &str, wide: f64, tall: f64, out: &mut Vec<String>) {
        let [right, bottom] = [wide - 1.0, tall - 1.0].map(number);
        out.push(format!(
            r#"<rect x="0.5" y="0.5" width="{right}" height="{bottom}" rx="8" fill="{PAPER}" stroke="{FRAME}"/>"#
        ));
        let rest = format!("{}: {shows}{}", self.right, self.page);
        let room = wide - 2.0 * MARGIN - svg::width(&rest, SIZE * BOLDER);
        let heading = svg::cut(self.title, SIZE * BOLDER, room) + &rest;
        let words = Words::at(MARGIN, 34.0, &heading).size(SIZE).start();
        out.push(words.more(BOLD).svg());
    }
}
