//! The catalogue's layout in 32-bit numbers: where a place begins, and what it holds of an entry.

use super::catalogue::{Held, PLACES, Renamed};
use super::term::{ONE, PRODUCT, SUM, Term, ZERO};
use super::words::Word;

/// The numbers of a place, and where its two lists begin.
pub const PLACE: usize = 5_408;
pub const LEFT: usize = 8;
pub const RIGHT: usize = 2_708;

/// Where the kept count stands.
pub const COUNT: usize = PLACES * PLACE;

/// The front of a place with an entry: its number, its key, the lengths of both lists, and four numbers of no use.
pub fn front(held: &Held) -> [u32; LEFT] {
    let lengths = lists(held).map(|list| list.len() as u32);
    [
        held.number,
        held.key as u32,
        lengths[0],
        lengths[1],
        0,
        0,
        0,
        0,
    ]
}

/// Both lists: the runs of the sides, or the word lists spelled, which are empty where the words agree.
pub fn lists(held: &Held) -> [Vec<u32>; 2] {
    match &held.renamed {
        Renamed::Sides(left, right) => [run(left), run(right)],
        Renamed::Lists(left, right) => [spelled(left), spelled(right)],
        Renamed::Agreed => [Vec::new(), Vec::new()],
    }
}

/// A v letter is its own number, a c letter 1,000 more.
fn run(term: &Term) -> Vec<u32> {
    let number = |&code: &u16| match code {
        ZERO => 4_096,
        ONE => 4_097,
        SUM => 4_098,
        PRODUCT => 4_099,
        letter => u32::from(letter),
    };
    term.run().iter().map(number).collect()
}

/// Each letter plus 1, and 0 behind each word.
fn spelled(words: &[Word]) -> Vec<u32> {
    let word = |word: &Word| {
        let letters = word.iter().map(|&letter| u32::from(letter) + 1);
        letters.chain([0]).collect::<Vec<_>>()
    };
    words.iter().flat_map(word).collect()
}
