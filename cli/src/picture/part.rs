//! What stands in the picture for a block: the pages of its derivation, or a card.

use super::answer::Block;
use super::card::Card;
use super::label::Label;
use super::page::{self, Page};
use super::path::Path;
use crate::names::Names;

pub struct Part<'a> {
    names: &'a Names,
    shows: Shows<'a>,
}

enum Shows<'a> {
    Path(Path<'a>, Vec<Page<'a>>),
    Card(Card<'a>),
}

impl<'a> Part<'a> {
    /// The block's part, of which pages are laid once the picture's width is known.
    pub fn new(block: &'a Block<'a>, names: &'a Names) -> Part<'a> {
        let shows = match block {
            Block::Derived(derivation) => Shows::Path(Path::new(derivation, names), Vec::new()),
            Block::None(sides) => Shows::Card(Card::none(*sides)),
            Block::Refused => Shows::Card(Card::refused()),
        };
        Part { names, shows }
    }

    /// The width that it needs.
    pub fn width(&self) -> f64 {
        match &self.shows {
            Shows::Path(path, _) => page::width(path, &path.rows(), self.names),
            Shows::Card(card) => card.width(),
        }
    }

    /// Lays its pages.
    pub fn lay(&mut self, wide: f64) {
        if let Shows::Path(path, pages) = &mut self.shows {
            let rows = path.rows();
            *pages = page::pages(path, rows, self.names, wide);
        }
    }

    /// How many pages it has.
    pub fn count(&self) -> usize {
        match &self.shows {
            Shows::Path(_, pages) => pages.len(),
            Shows::Card(_) => 1,
        }
    }

    pub fn tall(&self, page: usize, wide: f64) -> f64 {
        match &self.shows {
            Shows::Path(_, pages) => pages[page].tall,
            Shows::Card(card) => card.height(self.names, wide),
        }
    }

    pub fn draw(&self, page: usize, label: &Label, wide: f64, out: &mut Vec<String>) {
        match &self.shows {
            Shows::Path(path, pages) => pages[page].draw(path, label, wide, out),
            Shows::Card(card) => card.draw(label, self.names, wide, out),
        }
    }
}
