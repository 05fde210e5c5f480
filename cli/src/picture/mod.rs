//! Pictures of derivations.
//!
//! Each term of the path is a tree. Each line of the path is an arrow, on its page in a colour of its own. The part that a line replaces has a solid
//! outline in the term before, what it puts there a dashed one in the term after. Of an answer with several blocks each has pages of its own, in
//! their order; one without a derivation has a card. The same answer and names give the same bytes.

mod answer;
mod arrow;
mod boxes;
mod card;
mod derivation;
mod hand;
mod key;
mod label;
mod page;
mod part;
mod path;
mod svg;
#[cfg(test)]
mod tests;
mod tree;

use crate::names::Names;
use answer::Block;
use label::Label;
use part::Part;
use svg::{SANS, escape, number};

/// The most that a page measures, so that a screen of 1280 by 800 or 1366 by 768 shows it.
const WIDE: f64 = 1200.0;
const TALL: f64 = 700.0;

/// What lies between pages that stand one below the other.
const GAP: f64 = 16.0;

/// Draws an answer with a derivation. `title` is the picture's name (the answer file's stem); `page` is None for all pages, Some(k) for page k (from
/// 1) alone. What keeps it from being drawn is told in a sentence.
pub fn draw(
    title: &str,
    answer: &[u8],
    names: &Names,
    page: Option<usize>,
) -> Result<String, String> {
    let blocks = answer::read(answer)?;
    let picture = Picture::new(title, &blocks, names);
    let count = picture.sheets.len();
    match page {
        None if count > 1 => Ok(picture.all()),
        None => Ok(picture.one(1)),
        Some(page) if (1..=count).contains(&page) => Ok(picture.one(page)),
        Some(page) if count == 1 => Err(format!(
            "there is no page {page}: the picture has 1 page; ask for page 1"
        )),
        Some(page) => Err(format!(
            "there is no page {page}: the picture has {count} pages; ask for one of 1 to {count}"
        )),
    }
}

struct Picture<'a> {
    title: &'a str,
    blocks: &'a [Block<'a>],
    /// What stands for each block.
    parts: Vec<Part<'a>>,
    /// The pages, each by its part and its place there.
    sheets: Vec<(usize, usize)>,
    wide: f64,
}

impl<'a> Picture<'a> {
    fn new(title: &'a str, blocks: &'a [Block<'a>], names: &'a Names) -> Picture<'a> {
        let mut parts: Vec<Part> = blocks.iter().map(|block| Part::new(block, names)).collect();
        let wide = parts.iter().map(Part::width).fold(0.0, f64::max);
        parts.iter_mut().for_each(|part| part.lay(wide));
        let sheets = parts.iter().enumerate();
        let sheets =
            sheets.flat_map(|(place, part)| (0..part.count()).map(move |page| (place, page)));
        let sheets = sheets.collect();
        Picture {
            title,
            blocks,
            parts,
            sheets,
            wide,
        }
    }

    /// A page by itself.
    fn one(&self, page: usize) -> String {
        let (part, _) = self.sheets[page - 1];
        let Label {
            right, page: which, ..
        } = self.label(page);
        let told = match &self.blocks[part] {
            Block::Refused => "refused by 7".to_owned(),
            Block::None(ends) => from_to(*ends),
            Block::Derived(derivation) => from_to(derivation.ends()),
        };
        let mut out = self.head(self.tall(page), &format!("{right}: {told}{which}"));
        self.draw_page(page, &mut out);
        ended(out)
    }

    /// The pages one below the other, each with a view by which it can be shown alone.
    fn all(&self) -> String {
        let pages = 1..=self.sheets.len();
        let tall: f64 = pages.clone().map(|page| self.tall(page) + GAP).sum();
        let told = match self.blocks {
            [Block::Derived(derivation)] => from_to(derivation.ends()),
            blocks => format!("{} right sides", blocks.len()),
        };
        let mut views = self.head(tall - GAP, &format!(": {told}"));
        let (mut out, mut top) = (Vec::new(), 0.0);
        for page in pages {
            let [y, wide, tall] = [top, self.wide, self.tall(page)].map(number);
            views.push(format!(
                r#"<view id="page-{page}" viewBox="0 {y} {wide} {tall}" preserveAspectRatio="xMinYMin"/>"#
            ));
            out.push(format!(r#"<g transform="translate(0 {y})">"#));
            self.draw_page(page, &mut out);
            out.push("</g>".to_owned());
            top += self.tall(page) + GAP;
        }
        views.append(&mut out);
        ended(views)
    }

    fn tall(&self, page: usize) -> f64 {
        let (part, place) = self.sheets[page - 1];
        self.parts[part].tall(place, self.wide)
    }

    fn draw_page(&self, page: usize, out: &mut Vec<String>) {
        let (part, place) = self.sheets[page - 1];
        self.parts[part].draw(place, &self.label(page), self.wide, out);
    }

    fn label(&self, page: usize) -> Label<'a> {
        let (part, _) = self.sheets[page - 1];
        let of = |what: &str, number: usize, count: usize| match count {
            1 => String::new(),
            _ => format!(", {what} {number} of {count}"),
        };
        Label {
            title: self.title,
            right: of("right", part + 1, self.parts.len()),
            page: of("page", page, self.sheets.len()),
        }
    }

    /// The beginning of a picture: its size, and what it is called behind its title.
    fn head(&self, tall: f64, told: &str) -> Vec<String> {
        let [wide, tall] = [self.wide, tall].map(number);
        let title = escape(self.title);
        let size = format!(r#"width="{wide}" height="{tall}" viewBox="0 0 {wide} {tall}""#);
        vec![
            format!(r#"<svg xmlns="http://www.w3.org/2000/svg" {size} font-family="{SANS}">"#),
            format!("<title>{title}{told}</title>"),
        ]
    }
}

fn from_to([from, to]: [&str; 2]) -> String {
    format!("from {from} to {to}")
}

fn ended(mut out: Vec<String>) -> String {
    out.push("</svg>\n".to_owned());
    out.join("\n")
}
