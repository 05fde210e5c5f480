//! Counts of how pairs of equations are related.

use std::collections::BTreeMap;
use std::fmt;

use super::{Counts, add, show, show_each};
use crate::generate::{PAIR_KINDS, Pair};
use crate::names::Related;
use crate::plain::{alike::Alike, job::MOST_NODES, term::letters_of};

#[derive(Default)]
pub struct NameTally {
    pairs: usize,
    kinds: BTreeMap<usize, Counts>,
    all: Counts,
    /// Pairs that are alike, and of those the ones whose words agree.
    alike: usize,
    alike_agreed: usize,
    /// Pairs whose lists are alike both as they are and exchanged, words that agree left out.
    both_ways: usize,
    /// Pairs by the letters of the first equation.
    letters: BTreeMap<usize, usize>,
    /// Pairs with a side of 31 nodes.
    largest: usize,
}

impl NameTally {
    pub fn count(&mut self, pair: &Pair, related: &Related) {
        self.pairs += 1;
        let outcome = outcome(related);
        let kind = self.kinds.entry(pair.kind).or_default();
        for counts in [kind, &mut self.all] {
            *counts.entry(outcome.to_owned()).or_default() += 1;
        }
        let agreed = related.agree == [true; 2];
        let both_ways = related.lists.as_is && related.lists.exchanged && !agreed;
        self.alike += usize::from(related.sides.either());
        self.alike_agreed += usize::from(related.sides.either() && agreed);
        self.both_ways += usize::from(both_ways);
        let [left, right] = &pair.sides[0];
        let letters = letters_of(left, right).len();
        *self.letters.entry(letters).or_default() += 1;
        let mut sides = pair.sides.iter().flatten();
        self.largest += usize::from(sides.any(|side| side.size() == MOST_NODES));
    }

    /// Adds what another one counted.
    pub fn add(&mut self, other: NameTally) {
        self.pairs += other.pairs;
        for (kind, counts) in other.kinds {
            add(self.kinds.entry(kind).or_default(), counts);
        }
        add(&mut self.all, other.all);
        self.alike += other.alike;
        self.alike_agreed += other.alike_agreed;
        self.both_ways += other.both_ways;
        add(&mut self.letters, other.letters);
        self.largest += other.largest;
    }
}

/// Whether the sides are alike; if not, whether the words agree in both equations or in one, or are alike.
fn outcome(related: &Related) -> &'static str {
    let Alike { as_is, exchanged } = related.sides;
    match (as_is, exchanged, related.agree) {
        (true, true, _) => "alike both ways",
        (true, false, _) => "alike",
        (false, true, _) => "alike exchanged",
        (.., [true, true]) => "words agree",
        (.., [true, false] | [false, true]) => "words of one agree",
        _ if related.lists.either() => "words alike",
        _ => "not alike",
    }
}

impl fmt::Display for NameTally {
    fn fmt(&self, out: &mut fmt::Formatter<'_>) -> fmt::Result {
        for (&kind, counts) in &self.kinds {
            writeln!(out, "{:11} {}", PAIR_KINDS[kind].name, show(counts))?;
        }
        writeln!(out, "all         {}", show(&self.all))?;
        let NameTally {
            alike,
            alike_agreed,
            both_ways,
            largest,
            ..
        } = self;
        writeln!(
            out,
            "alike: {alike}, of which words agree in {alike_agreed}; different lists alike both ways: {both_ways}"
        )?;
        writeln!(
            out,
            "letters of the first equation: {}; pairs with a side of 31 nodes: {largest}",
            show_each(&self.letters)
        )?;
        write!(out, "{} pairs, {} calls", self.pairs, 3 * self.pairs)
    }
}
