//! Whether one pair of terms, or of word lists, is another one with its v letters renamed one to one. No least form is
//! made: terms are walked side by side, and of word lists every renaming is tried.

use super::term::{Term, is_v};
use super::words::Word;

/// How a renaming makes the other pair: of the pair as it is, with its two parts exchanged, or both.
#[derive(Clone, Copy, Debug, Default, Eq, PartialEq)]
pub struct Alike {
    pub as_is: bool,
    pub exchanged: bool,
}

impl Alike {
    pub fn either(self) -> bool {
        self.as_is || self.exchanged
    }
}

/// How the sides of one equation become those of another.
pub fn terms(one: &[Term; 2], other: &[Term; 2]) -> Alike {
    let [left, right] = other;
    Alike {
        as_is: is_renamed(one, [left, right]),
        exchanged: is_renamed(one, [right, left]),
    }
}

/// Walks both pairs side by side: where one has a v letter the other has its partner, else both have the same item.
fn is_renamed(one: &[Term; 2], other: [&Term; 2]) -> bool {
    let mut partners = Partners::default();
    one.iter().zip(other).all(|(one, other)| {
        let mut items = one.run().iter().zip(other.run());
        one.size() == other.size()
            && items.all(|(&one, &other)| match is_v(one) && is_v(other) {
                true => partners.met(one, other),
                false => one == other,
            })
    })
}

/// V letters that were met in the same place, none of them in two pairs.
#[derive(Default)]
struct Partners(Vec<(u16, u16)>);

impl Partners {
    /// Notes that two letters are partners; says no where one of them has another partner.
    fn met(&mut self, one: u16, other: u16) -> bool {
        let mut known = self.0.iter();
        let held = known.find(|&&(old, new)| old == one || new == other);
        match held {
            Some(&pair) => pair == (one, other),
            None => {
                self.0.push((one, other));
                true
            }
        }
    }
}

/// How one pair of word lists becomes another; all lists are sorted.
pub fn lists(one: &[Vec<Word>; 2], other: &[Vec<Word>; 2]) -> Alike {
    let (old, new) = (letters(one), letters(other));
    let mut found = Alike::default();
    if old.len() != new.len() {
        return found;
    }
    let [left, right] = other;
    for images in orders(&new) {
        let renamed = one.each_ref().map(|list| renamed(list, &old, &images));
        found.as_is |= renamed.each_ref() == [left, right];
        found.exchanged |= renamed.each_ref() == [right, left];
    }
    found
}

/// The different v letters of both lists.
fn letters(lists: &[Vec<Word>; 2]) -> Vec<u16> {
    let mut found = Vec::new();
    for &letter in lists.iter().flatten().flatten() {
        if is_v(letter) && !found.contains(&letter) {
            found.push(letter);
        }
    }
    found
}

/// All orders of these letters: each letter is set in every place of the orders of those before it.
fn orders(letters: &[u16]) -> Vec<Vec<u16>> {
    letters.iter().fold(vec![Vec::new()], |orders, &letter| {
        let set_in = |order: &Vec<u16>, at: usize| [&order[..at], &[letter], &order[at..]].concat();
        let longer = orders
            .iter()
            .flat_map(|order| (0..=order.len()).map(move |at| set_in(order, at)));
        longer.collect()
    })
}

/// The list with each old letter's image in its place, all others kept, sorted anew.
fn renamed(list: &[Word], old: &[u16], images: &[u16]) -> Vec<Word> {
    let image = |letter: &u16| match old.iter().position(|known| known == letter) {
        Some(at) => images[at],
        None => *letter,
    };
    let mut new: Vec<Word> = list
        .iter()
        .map(|word| word.iter().map(image).collect())
        .collect();
    new.sort();
    new
}
