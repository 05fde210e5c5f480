//! Equations of many shapes: small and large, with words that agree, and such that renamings keep.

use super::changes::{Sides, led_on, with_letters};
use super::listed::{many_letters, product_of_sums};
use super::random::Random;
use super::terms::{joined, letters, mixed, replaced_or_mixed, some_letters, term, term_up_to};
use crate::plain::job::{MOST_LETTERS, MOST_NODES};
use crate::plain::term::{PRODUCT, SUM, Term, is_c, letters_of};

/// Mostly random terms, up to six letters and 31 nodes a side.
pub fn any(random: &mut Random) -> Sides {
    match random.below(10) {
        0 => agreed(random),
        1 => symmetric(random),
        2 | 3 => {
            let pool = mixed(random, MOST_LETTERS, MOST_LETTERS + 2);
            [(); 2].map(|()| many_letters(random, &pool))
        }
        _ => {
            let pool = some_letters(random);
            let most = random.pick(&[3, 5, 7, 9, 15, MOST_NODES]);
            [(); 2].map(|()| term_up_to(random, most, &pool))
        }
    }
}

/// Likewise, with two letters or more.
pub fn lettered(random: &mut Random) -> Sides {
    let sides = any(random);
    let [left, right] = &sides;
    match letters_of(left, right).len() {
        0 | 1 => lettered(random),
        _ => sides,
    }
}

/// Likewise, with a c letter or more.
pub fn tabled(random: &mut Random) -> Sides {
    let sides = lettered(random);
    let [left, right] = &sides;
    match letters_of(left, right).into_iter().any(is_c) {
        true => sides,
        false => tabled(random),
    }
}

/// Sides with the same words: a term, and the end of a chain from it.
pub fn agreed(random: &mut Random) -> Sides {
    let pool = some_letters(random);
    let most = random.pick(&[1, 3, 5, 9, 15]);
    let left = term_up_to(random, most, &pool);
    let right = led_on(random, &left);
    [left, right]
}

/// So small, over so few letters, that many are alike by chance.
pub fn small(random: &mut Random) -> Sides {
    let count = random.pick(&[1, 2, 2, 3]);
    let pool = letters(random, count);
    let most = random.pick(&[1, 3, 3]);
    [(); 2].map(|()| term_up_to(random, most, &pool))
}

/// Equations of which the sides, or the word lists, are the same under several renamings.
pub fn symmetric(random: &mut Random) -> Sides {
    let count = random.between(2, MOST_LETTERS);
    let pool = letters(random, count);
    match random.below(3) {
        0 => mirrored(random, &pool),
        _ => [(); 2].map(|()| match random.below(3) {
            0 => power(random, &pool),
            _ => turned_about(random, &pool),
        }),
    }
}

/// A term, and the same one with its letters exchanged two by two: renamed and exchanged it is itself.
fn mirrored(random: &mut Random, pool: &[u16]) -> Sides {
    let most = random.pick(&[3, 5, 9, 15, MOST_NODES]);
    let left = term_up_to(random, most, pool);
    let mut images = pool.to_vec();
    for pair in images.chunks_exact_mut(2) {
        pair.reverse();
    }
    let right = with_letters(&left, pool, &images);
    [left, right]
}

/// The sum of a small term with its letters moved on by no place, by one, by two and so on: its words are the same in
/// every turn of the letters.
fn turned_about(random: &mut Random, pool: &[u16]) -> Term {
    let most = (MOST_NODES + 1) / pool.len() - 1;
    let small = term_up_to(random, most.min(5), pool);
    let turns = (0..pool.len()).map(|by| {
        let mut images = pool.to_vec();
        images.rotate_left(by);
        with_letters(&small, pool, &images).run().to_vec()
    });
    let turns = turns.collect();
    Term::of(joined(random, turns, &[SUM]))
}

/// The sum of all letters, up to three times multiplied: its words are the same under every renaming of them.
fn power(random: &mut Random, pool: &[u16]) -> Term {
    let most = (MOST_NODES + 1) / (2 * pool.len());
    let count = random.between(1, most.min(3));
    let sums = (0..count).map(|_| {
        let mut atoms: Vec<Vec<u16>> = pool.iter().map(|&letter| vec![letter]).collect();
        random.shuffle(&mut atoms);
        joined(random, atoms, &[SUM])
    });
    let sums = sums.collect();
    Term::of(joined(random, sums, &[PRODUCT]))
}

/// 31 nodes a side over six v letters.
pub fn large(random: &mut Random) -> Sides {
    let pool = mixed(random, MOST_LETTERS, 3 * MOST_LETTERS);
    [(); 2].map(|()| term(random, MOST_NODES, &pool))
}

/// Up to 324 words a side.
pub fn most_words(random: &mut Random) -> Sides {
    let count = random.between(3, MOST_LETTERS);
    let pool = replaced_or_mixed(random, count);
    [(); 2].map(|()| product_of_sums(random, &pool))
}
