//! The arrow of a line, from one term to the next.

use super::derivation::Line;
use super::svg::{BOLD, Colour, Words, number};

pub struct Arrow {
    line: String,
    law: &'static str,
    how: String,
    read: String,
    colour: &'static str,
    pub width: f64,
}

impl Arrow {
    /// The arrow of the line that has this index.
    pub fn new(index: usize, line: &Line, colour: Colour) -> Arrow {
        let place = if line.place.is_empty() {
            "the top"
        } else {
            line.place
        };
        let how = format!("{}, at {place}", line.direction.name());
        let read = line.law.read(line.direction);
        let below = how.chars().count().max(read.chars().count());
        let width = (8.0 * line.law.name.len() as f64).max(6.8 * below as f64) + 36.0;
        let (law, colour) = (line.law.name, colour.line);
        Arrow {
            line: format!("line {}", index + 1),
            law,
            how,
            read,
            colour,
            width,
        }
    }

    pub fn draw(&self, left: f64, top: f64, out: &mut Vec<String>) {
        let colour = self.colour;
        let (middle, y) = (left + self.width / 2.0, top + 48.0);
        let (start, end) = (left + 12.0, left + self.width - 12.0);
        let words = |down: f64, text| Words::at(middle, y + down, text).fill(colour);
        out.push(words(-26.0, &self.line).svg());
        out.push(words(-9.0, self.law).size(13.0).more(BOLD).svg());
        let [x, to, tip, at] = [start, end - 8.0, end, y].map(number);
        out.push(format!(
            r#"<path d="M{x} {at}H{to}" stroke="{colour}" stroke-width="2.2"/>"#
        ));
        out.push(format!(
            r#"<path d="M{tip} {at}l-11 -5.5v11z" fill="{colour}"/>"#
        ));
        out.push(words(20.0, &self.how).svg());
        out.push(words(37.0, &self.read).svg());
    }
}
