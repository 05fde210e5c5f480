//! Jobs whose word lists part at many places: behind common words, or at the end of the shorter one.

use super::changes::{Sides, led_on};
use super::listed::{listed, word_atom};
use super::random::Random;
use super::terms::{joined, replaced_or_mixed, term_up_to};
use crate::Call;
use crate::plain::{
    self,
    job::MOST_NODES,
    parted::last_line_off,
    term::{ONE, PRODUCT, SUM, Term, ZERO},
};

/// The atoms of each factor of a product of sums.
pub type Factors = Vec<Vec<u16>>;

/// A product of sums, and a side whose words mostly begin as its words do, in any order. In some calls the room is
/// about what the answer takes, with its last line or without.
pub fn parted(random: &mut Random) -> Call {
    let pool = match random.below(6) {
        0 => vec![ONE],
        _ => {
            let count = random.pick(&[1, 2, 2, 3, 3, 4, 5, 6]);
            replaced_or_mixed(random, count)
        }
    };
    let mut sides = sides(random, &pool);
    if sides[0] == sides[1] {
        return parted(random);
    }
    random.shuffle(&mut sides);
    let call = listed(random, &sides[0], &sides[1]);
    match random.below(6) {
        0 => in_room(random, call),
        _ => call,
    }
}

fn sides(random: &mut Random, pool: &[u16]) -> Sides {
    let factors = factors(random, pool);
    let one = product(random, &factors);
    let other = match random.below(10) {
        0 => wordless(random, pool),
        1 => led_on(random, &one),
        2 | 3 => with_word(random, pool, &one),
        _ => {
            let factors = changed(random, pool, &factors);
            product(random, &factors)
        }
    };
    [one, other]
}

/// Up to sixteen atoms; in three of four calls they make 324, 288 or 243 words if none is 0.
pub fn factors(random: &mut Random, pool: &[u16]) -> Factors {
    let mut widths = match random.below(4) {
        0 => vec![4, 3, 3, 3, 3],
        1 => vec![4, 4, 3, 3, 2],
        2 => vec![3; 5],
        _ => [1, 2, 3, 4, 4][..random.between(1, 5)].to_vec(),
    };
    random.shuffle(&mut widths);
    let mut atoms = |width| (0..width).map(|_| word_atom(random, pool)).collect();
    widths.into_iter().map(&mut atoms).collect()
}

pub fn product(random: &mut Random, factors: &Factors) -> Term {
    let factors = factors.iter().map(|atoms| {
        let atoms = atoms.iter().map(|&atom| vec![atom]).collect();
        joined(random, atoms, &[SUM])
    });
    let factors = factors.collect();
    Term::of(joined(random, factors, &[PRODUCT]))
}

/// An atom dropped or another in its place, two factors exchanged, or other factors.
pub fn changed(random: &mut Random, pool: &[u16], factors: &Factors) -> Factors {
    let mut new = factors.clone();
    let (factor, at) = spot(random, factors);
    match random.below(6) {
        0 => new = self::factors(random, pool),
        1 => new.swap(factor, (factor + 1) % factors.len()),
        2 | 3 => new[factor][at] = word_atom(random, pool),
        _ if factors[factor].len() > 1 => {
            new[factor].remove(at);
        }
        _ => {}
    }
    match new == *factors {
        true => changed(random, pool, factors),
        false => new,
    }
}

/// A factor, and the place of an atom in it: in two of three calls of the greatest in the first factor, with which the
/// last words begin.
fn spot(random: &mut Random, factors: &Factors) -> (usize, usize) {
    if random.below(3) > 0 {
        return (0, greatest(&factors[0]));
    }
    let factor = random.below(factors.len());
    (factor, random.below(factors[factor].len()))
}

fn greatest(atoms: &[u16]) -> usize {
    let places = 0..atoms.len();
    places
        .max_by_key(|&at| atoms[at])
        .expect("a factor has atoms")
}

/// The term and a word more, if there is room for one; in half of the calls it begins with the greatest letter.
pub fn with_word(random: &mut Random, pool: &[u16], term: &Term) -> Term {
    let most = (MOST_NODES - term.size()) / 2;
    if most == 0 {
        return term.clone();
    }
    let length = random.between(1, most.min(4));
    let mut letters: Vec<u16> = (0..length).map(|_| random.pick(pool)).collect();
    if random.percent(50) {
        letters[0] = pool[greatest(pool)];
    }
    let letters = letters.into_iter().map(|letter| vec![letter]).collect();
    let mut parts = vec![joined(random, letters, &[PRODUCT]), term.run().to_vec()];
    random.shuffle(&mut parts);
    Term::of(joined(random, parts, &[SUM]))
}

/// 0, or 0 times a term.
pub fn wordless(random: &mut Random, pool: &[u16]) -> Term {
    let mut parts = vec![vec![ZERO]];
    if random.percent(50) {
        parts.push(term_up_to(random, 15, pool).run().to_vec());
    }
    random.shuffle(&mut parts);
    Term::of(joined(random, parts, &[PRODUCT]))
}

/// Room about what the answer takes, or what it takes without its last line.
fn in_room(random: &mut Random, call: Call) -> Call {
    let (text, _) = plain::whole(call.entry, &call.job).expect("a good job");
    let (shorter, _) = last_line_off(&text);
    let length = random.pick(&[text.len(), shorter.len()]);
    let room = random.around(length);
    Call { room, ..call }
}
