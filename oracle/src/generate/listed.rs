//! Jobs for WORDS and RENAME: the most words a side can have, and many letters.

use super::draft::{Draft, call};
use super::random::Random;
use super::terms::{holding, joined, mixed, replaced_or_mixed, term};
use crate::plain::job::MOST_LETTERS;
use crate::plain::term::{ONE, PRODUCT, SUM, Term, ZERO};
use crate::{Call, Entry};

const LIMITS: [usize; 4] = [3, 7, 3, 100];

/// WORDS in two of three calls, else RENAME.
pub fn listed(random: &mut Random, left: &Term, right: &Term) -> Call {
    let entry = random.pick(&[Entry::Words, Entry::Words, Entry::Rename]);
    let job = Draft::new(left, [right], LIMITS).bytes();
    call(random, entry, job)
}

/// Products of sums, up to 324 words a side; where c letters are drawn, in place of some v letters or beside them.
pub fn words(random: &mut Random) -> Call {
    let count = random.between(1, 6);
    let pool = replaced_or_mixed(random, count);
    let left = product_of_sums(random, &pool);
    let right = match random.below(3) {
        0 => term(random, 31, &pool),
        _ => product_of_sums(random, &pool),
    };
    if left == right {
        return words(random);
    }
    listed(random, &left, &right)
}

/// Sixteen atoms or fewer, summed by threes and fours, multiplied.
pub fn product_of_sums(random: &mut Random, pool: &[u16]) -> Term {
    let mut widths = vec![3, 3, 3, 3, 4];
    match random.below(4) {
        0 => widths = vec![2; 8],
        1 => widths.truncate(random.between(1, 4)),
        _ => random.shuffle(&mut widths),
    }
    let factors = widths.iter().map(|&width| {
        let atoms = (0..width).map(|_| vec![word_atom(random, pool)]).collect();
        joined(random, atoms, &[SUM])
    });
    let factors = factors.collect();
    Term::of(joined(random, factors, &[PRODUCT]))
}

pub fn word_atom(random: &mut Random, pool: &[u16]) -> u16 {
    match random.below(40) {
        0 => ZERO,
        1..4 => ONE,
        _ => random.pick(pool),
    }
}

/// Up to six v letters in both sides, and c letters, some lost where 0 multiplies.
pub fn renames(random: &mut Random) -> Call {
    let count = random.pick(&[0, 1, 2, 3, 4, 5, 6, 6, 6, 6]);
    let pool = mixed(random, count, MOST_LETTERS + 2);
    let [left, right] = [(); 2].map(|()| many_letters(random, &pool));
    if left == right {
        return renames(random);
    }
    let job = Draft::new(&left, [&right], LIMITS).bytes();
    call(random, Entry::Rename, job)
}

/// A term of few items, mostly one that holds all these letters.
pub fn many_letters(random: &mut Random, pool: &[u16]) -> Term {
    let size = 2 * random.below(8) + 1;
    let extra = term(random, size, pool).run().to_vec();
    let parts = match random.below(4) {
        0 => vec![extra],
        1 => vec![vec![PRODUCT, ZERO, random.pick(&[ZERO, ONE])], extra],
        _ => vec![holding(random, pool).run().to_vec(), extra],
    };
    Term::of(joined(random, parts, &[SUM, PRODUCT]))
}
