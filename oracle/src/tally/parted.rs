//! Where the lists of WORDS' answers part.

use std::fmt;

use super::places::Places;
use crate::plain::parted::{Said, said};

/// The answers that say yes, those that say no by the place, and of these the ones whose smaller list is a beginning of
/// the other.
#[derive(Default)]
pub struct Parted {
    same: usize,
    places: Places,
    beginnings: usize,
    /// Of the beginnings those without a word.
    wordless: usize,
}

impl Parted {
    pub fn count(&mut self, answer: &[u8]) {
        let Said { lists, place } = said(answer);
        let Some(place) = place else {
            self.same += 1;
            return;
        };
        self.places.count(place);
        self.beginnings += usize::from(place == lists[0].len());
        self.wordless += usize::from(lists[0].is_empty());
    }

    pub fn add(&mut self, other: &Parted) {
        self.same += other.same;
        self.places.add(&other.places);
        self.beginnings += other.beginnings;
        self.wordless += other.wordless;
    }
}

impl fmt::Display for Parted {
    fn fmt(&self, out: &mut fmt::Formatter<'_>) -> fmt::Result {
        let Parted {
            same,
            places,
            beginnings,
            wordless,
        } = self;
        write!(out, "words the same in {same}; {places}; ")?;
        write!(
            out,
            "at a list's end in {beginnings}, which has no word in {wordless}"
        )
    }
}
