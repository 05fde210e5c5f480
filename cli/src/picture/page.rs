//! The pages of a derivation: which rows each has, its key and legend.

use super::key::{self, Key};
use super::label::{ABOVE, Label};
use super::path::{MARGIN, Path, Row};
use super::svg::{COLOURS, Colour, DASHED, SOFT, Words, number};
use super::{TALL, WIDE};
use crate::names::Names;

/// What a page has below its rows.
const BELOW: f64 = 24.0;
/// The width that the legend needs.
const LEGEND: f64 = 640.0;

pub struct Page<'a> {
    rows: Vec<Row>,
    key: Key<'a>,
    pub tall: f64,
}

/// The width of all pages: that of the widest row or name.
pub fn width(path: &Path, rows: &[Row], names: &Names) -> f64 {
    let of_rows = rows.iter().map(|row| path.row_width(row));
    let entry = |item| Some(key::entry_width(item, names.get(item)?));
    let of_names = path.items(rows).filter_map(entry);
    let widest = of_rows.chain(of_names).fold(0.0, f64::max);
    (2.0 * MARGIN + widest).clamp(LEGEND, WIDE)
}

/// Lays the rows on pages in their order, each on the page before it if that has room, and a colour for each line. The trees of a row that is too high for a page are lowered.
pub fn pages<'a>(path: &mut Path<'a>, rows: Vec<Row>, names: &Names, wide: f64) -> Vec<Page<'a>> {
    let mut pages: Vec<Page> = Vec::new();
    for row in rows {
        let alone = Page::new(path, vec![row.clone()], names, wide);
        path.lower(&row, TALL - ABOVE - BELOW - alone.key.height());
        if let Some(last) = pages.last_mut() {
            let rows = last.rows.iter().cloned().chain([row.clone()]).collect();
            let longer = Page::new(path, rows, names, wide);
            if longer.tall <= TALL && longer.lines() <= COLOURS.len() {
                *last = longer;
                continue;
            }
        }
        pages.push(Page::new(path, vec![row], names, wide));
    }
    pages
}

impl<'a> Page<'a> {
    fn new(path: &Path<'a>, rows: Vec<Row>, names: &Names, wide: f64) -> Page<'a> {
        let key = Key::new(path.items(&rows), names, wide - 2.0 * MARGIN);
        let high: f64 = rows.iter().map(|row| path.row_height(row)).sum();
        let tall = ABOVE + high + key.height() + BELOW;
        Page { rows, key, tall }
    }

    /// How many lines it shows at most: one to each of its terms, and the one that leads on.
    fn lines(&self) -> usize {
        self.rows.iter().map(|row| row.len()).sum::<usize>() + 1
    }

    pub fn draw(&self, path: &Path, label: &Label, wide: f64, out: &mut Vec<String>) {
        label.draw(&path.shows(), wide, self.tall, out);
        let mut top = ABOVE;
        for row in &self.rows {
            path.draw_row(row, top, out);
            top += path.row_height(row);
        }
        self.key.draw(top + 4.0, out);
        legend(top + self.key.height() + 4.0, out);
    }
}

fn legend(y: f64, out: &mut Vec<String>) {
    let Colour { line, fill } = COLOURS[0];
    let words = |x: f64, text| Words::at(MARGIN + x, y, text).fill(SOFT).start().svg();
    let sample = |x: f64, dash: &str| {
        let [x, y] = [MARGIN + x, y - 11.0].map(number);
        format!(
            r#"<rect x="{x}" y="{y}" width="26" height="15" rx="5" fill="{fill}" stroke="{line}" stroke-width="2"{dash}/>"#
        )
    };
    out.push(sample(0.0, ""));
    out.push(words(34.0, "the next line replaces this"));
    out.push(sample(212.0, DASHED));
    out.push(words(246.0, "the line before put this there"));
    out.push(words(452.0, "same colour: same line"));
}
