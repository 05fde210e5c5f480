//! The boxes of names: how wide they are in a tree that has only so much room.

use super::svg::{self, INK, PAPER, Words, number};
use crate::names::Names;

/// The size of names, and the one taken where names at the first would have to be cut.
const SIZES: [f64; 2] = [12.0, 10.0];
/// What a box has beside its name, and what lies between boxes at least.
const BESIDE: f64 = 10.0;
const BETWEEN: f64 = 14.0;
/// The least that a leaf takes, and the least width of a box.
const ACROSS: f64 = 50.0;
const LEAST: f64 = 30.0;
/// Half the height of a box.
const HALF: f64 = 13.0;

/// How a tree's names are drawn: in which size, and how wide a box may be.
pub struct Boxes<'n> {
    names: &'n Names,
    size: f64,
    most: f64,
}

impl<'n> Boxes<'n> {
    /// Boxes for names that are whole where the tree's leaves have room for that.
    pub fn new(leaves: &[&str], names: &'n Names, room: f64) -> Boxes<'n> {
        let [large, small] = SIZES.map(|size| {
            let wide = |leaf: &&str| names.get(leaf).map_or(LEAST, |name| width(name, size));
            leaves.iter().map(wide).collect::<Vec<f64>>()
        });
        let take = |boxes: &[f64], most: f64| -> f64 {
            boxes.iter().map(|wide| cell(wide.min(most))).sum()
        };
        let mut most = room - BETWEEN;
        if take(&large, most) <= room {
            return Boxes {
                names,
                size: SIZES[0],
                most,
            };
        }
        while most > LEAST && take(&small, most) > room {
            most -= 1.0;
        }
        Boxes {
            names,
            size: SIZES[1],
            most,
        }
    }

    /// What stands in an item's box, and the box's width: its name, or if that has no room, the item with as much of the name as has
    /// room. So different letters never look alike.
    pub fn of(&self, item: &str) -> Option<(String, f64)> {
        let name = self.names.get(item)?;
        let whole = width(name, self.size);
        if whole <= self.most {
            return Some((name.to_owned(), whole));
        }
        let cut = svg::cut(&format!("{item} {name}"), self.size, self.most - BESIDE);
        let has_more = cut.len() > item.len() + " …".len();
        Some((if has_more { cut } else { item.to_owned() }, self.most))
    }

    /// The size of the names.
    pub fn size(&self) -> f64 {
        self.size
    }
}

/// The width of a whole name's box.
fn width(name: &str, size: f64) -> f64 {
    (svg::width(name, size) + BESIDE).ceil().max(LEAST)
}

/// The width that a leaf takes which is so wide itself.
pub fn cell(wide: f64) -> f64 {
    (wide + BETWEEN).max(ACROSS)
}

/// Draws a name in its box about a point.
pub fn draw(at: (f64, f64), wide: f64, name: &str, size: f64, scale: f64, out: &mut Vec<String>) {
    let (x, y) = at;
    let half = HALF * scale;
    let [left, top, wide, high] = [x - wide / 2.0, y - half, wide, 2.0 * half].map(number);
    out.push(format!(
        r#"<rect x="{left}" y="{top}" width="{wide}" height="{high}" rx="8" fill="{PAPER}" stroke="{INK}" stroke-width="1.6"/>"#
    ));
    let size = size * scale;
    out.push(Words::at(x, y + size * 0.36, name).size(size).held().svg());
}
