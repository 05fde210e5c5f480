//! Pairs of equations for RENAME: one, and another made from it or drawn beside it.

use std::ops::Range;

use super::changes::{self, Change, Sides};
use super::draft::{Draft, any_limits};
use super::equations;
use super::random::Random;
use super::tables;
use crate::plain::{
    job::{self, MOST_LETTERS, MOST_NODES},
    term::v_letters_of,
};

/// Which pairs to make.
#[derive(Clone, Debug)]
pub struct Names {
    pub seed: u64,
    /// The index of the first one.
    pub first: u64,
    pub count: u64,
    /// Whether c letters are among the letters.
    pub has_c: bool,
}

impl Default for Names {
    fn default() -> Names {
        Names {
            seed: 1,
            first: 0,
            count: 1_000,
            has_c: false,
        }
    }
}

impl Names {
    pub fn indices(&self) -> Range<u64> {
        self.first..self.first + self.count
    }

    /// The pair of this index, whatever the others are.
    pub fn pair(&self, index: u64) -> Pair {
        let mut random = Random::new(self.seed, index).with_c(self.has_c);
        let share = |kind: &PairKind| kind.shares[usize::from(self.has_c)];
        let kind = random.by_share(&PAIR_KINDS.each_ref().map(share));
        let mut sides = PAIR_KINDS[kind].good(&mut random);
        random.shuffle(&mut sides);
        Pair {
            kind,
            sides,
            limits: [(); 3].map(|()| any_limits(&mut random)),
        }
    }
}

/// Two equations that pass refusals 1 to 6, each with limits of its own, and limits for a third job.
pub struct Pair {
    pub kind: usize,
    pub sides: [Sides; 2],
    limits: [[usize; 4]; 3],
}

impl Pair {
    pub fn jobs(&self) -> [Vec<u8>; 2] {
        [0, 1].map(|at| {
            let [left, right] = &self.sides[at];
            Draft::new(left, [right], self.limits[at]).bytes()
        })
    }

    /// The third job, with these texts as its sides.
    pub fn third_job(&self, sides: [&str; 2]) -> Vec<u8> {
        let limits = self.limits[2].map(|limit| limit.to_string());
        let limits = limits.each_ref().map(String::as_str);
        job::write(&[&sides[..], &limits[..]].concat())
    }
}

/// A kind of pair, its share among those without and among those with c letters, and what it is.
pub struct PairKind {
    pub name: &'static str,
    pub shares: [usize; 2],
    pub what: &'static str,
    first: fn(&mut Random) -> Sides,
    other: Change,
}

impl PairKind {
    /// A pair of which both equations pass refusals 3, 4 and 6.
    fn good(&self, random: &mut Random) -> [Sides; 2] {
        loop {
            let first = (self.first)(random);
            let other = (self.other)(random, &first);
            let pair = [first, other];
            if pair.iter().all(is_good) {
                return pair;
            }
        }
    }
}

fn is_good([left, right]: &Sides) -> bool {
    left != right
        && left.size().max(right.size()) <= MOST_NODES
        && v_letters_of(left, right).len() <= MOST_LETTERS
}

const fn kind(
    name: &'static str,
    shares: [usize; 2],
    what: &'static str,
    first: fn(&mut Random) -> Sides,
    other: Change,
) -> PairKind {
    PairKind {
        name,
        shares,
        what,
        first,
        other,
    }
}

/// The kinds; the shares without and with c letters make a thousand each.
#[rustfmt::skip]
pub const PAIR_KINDS: [PairKind; 18] = [
    kind("renamed", [90, 80], "v letters renamed one to one", equations::any, changes::with_other_letters),
    kind("exchanged", [50, 40], "sides exchanged", equations::any, changes::exchanged),
    kind("turned", [90, 80], "both", equations::any, changes::turned),
    kind("merged", [80, 70], "two letters made one", equations::lettered, changes::merged),
    kind("one-place", [90, 80], "another letter in one place", equations::lettered, changes::one_place),
    kind("crossed", [80, 70], "two letters exchanged on one side only", equations::lettered, changes::crossed),
    kind("half", [70, 60], "letters renamed on one side only", equations::lettered, changes::half_renamed),
    kind("rewritten", [80, 60], "one side rewritten by a law", equations::any, changes::one_rewritten),
    kind("led-on", [80, 60], "both sides rewritten, by up to four lines each", equations::any, changes::both_rewritten),
    kind("agreed", [50, 40], "two by themselves whose words agree", equations::agreed, |random, _| equations::agreed(random)),
    kind("unrelated", [50, 40], "two by themselves", equations::any, |random, _| equations::any(random)),
    kind("small", [90, 80], "two small ones over few letters", equations::small, |random, _| equations::small(random)),
    kind("symmetric", [70, 60], "one that renamings keep, changed in any way", equations::symmetric, changes::in_any_way),
    kind("large", [20, 20], "31 nodes a side, six v letters, changed likewise", equations::large, changes::in_any_way),
    kind("most-words", [10, 10], "up to 324 words a side, changed likewise", equations::most_words, changes::in_any_way),
    kind("other-table", [0, 60], "one c letter exchanged for a new one", equations::tabled, tables::other_table),
    kind("swapped", [0, 50], "two c letters exchanged", equations::tabled, tables::swapped),
    kind("freed", [0, 40], "a c letter made a v letter, or the other way", equations::tabled, tables::freed),
];
