//! Jobs for SAME: sides with the same words, with other counts of words, with as many but other words, and what it
//! refuses.

use super::changes::{Sides, led_on, with_letters};
use super::draft::{Draft, any_limits, call};
use super::kinds::Make;
use super::parted::{changed, factors, product, with_word, wordless};
use super::random::Random;
use super::terms::{joined, replaced_or_mixed, term_up_to};
use super::{broken, refused, spoilt};
use crate::plain::job::MOST_NODES;
use crate::plain::same::count;
use crate::plain::term::{ONE, PRODUCT, SUM, Term, end};
use crate::plain::words::{Word, first_difference, words};
use crate::{Call, Entry, PROGRAM_ROOM};

/// SAME of two sides, in any order.
fn asked(random: &mut Random, mut sides: Sides) -> Call {
    random.shuffle(&mut sides);
    let [left, right] = &sides;
    let job = Draft::new(left, [right], any_limits(random)).bytes();
    Call {
        slots: 0,
        ..call(random, Entry::Same, job)
    }
}

fn pool(random: &mut Random) -> Vec<u16> {
    let count = random.pick(&[1, 2, 2, 3, 3, 4, 5, 6]);
    replaced_or_mixed(random, count)
}

/// A product of sums, up to 324 words.
fn large(random: &mut Random, pool: &[u16]) -> Term {
    let factors = factors(random, pool);
    product(random, &factors)
}

/// Sides with the same words: parts of sums exchanged, the words of one side summed, or some lines taken.
pub fn yes(random: &mut Random) -> Call {
    let pool = pool(random);
    let one = match random.below(3) {
        0 => term_up_to(random, MOST_NODES, &pool),
        _ => large(random, &pool),
    };
    let other = match random.below(4) {
        0 => turned(random, &one),
        1 => summed(random, &one),
        _ => led_on(random, &one),
    };
    match one == other {
        true => yes(random),
        false => asked(random, [one, other]),
    }
}

/// The term with the parts of some of its sums exchanged.
fn turned(random: &mut Random, term: &Term) -> Term {
    let mut run = term.run().to_vec();
    for at in (0..run.len()).rev() {
        if run[at] == SUM && random.percent(50) {
            let (left, right) = (at + 1, end(&run, at + 1));
            let right_end = end(&run, right);
            run[left..right_end].rotate_left(right - left);
        }
    }
    Term::of(run)
}

/// The sum of the term's words in any order, if it is not too large; else the term after some lines.
fn summed(random: &mut Random, term: &Term) -> Term {
    let mut list = words(term);
    let nodes: usize = list.iter().map(|word| 2 * word.len().max(1)).sum();
    if list.is_empty() || nodes > MOST_NODES + 1 {
        return led_on(random, term);
    }
    random.shuffle(&mut list);
    let parts = list.into_iter().map(|word| spelled(random, word)).collect();
    Term::of(joined(random, parts, &[SUM]))
}

/// The run of a term with this word alone.
fn spelled(random: &mut Random, word: Word) -> Vec<u16> {
    let mut letters: Vec<Vec<u16>> = word.into_iter().map(|letter| vec![letter]).collect();
    if letters.is_empty() {
        letters.push(vec![ONE]);
    }
    joined(random, letters, &[PRODUCT])
}

/// Sides whose counts of words differ, in some calls by one.
pub fn counts(random: &mut Random) -> Call {
    let pool = match random.below(4) {
        0 => vec![ONE],
        _ => pool(random),
    };
    let factors = factors(random, &pool);
    let one = product(random, &factors);
    let other = match random.below(8) {
        0 => wordless(random, &pool),
        1 => term_up_to(random, MOST_NODES, &pool),
        2 => large(random, &pool),
        3..6 => with_word(random, &pool, &one),
        _ => {
            let factors = changed(random, &pool, &factors);
            product(random, &factors)
        }
    };
    match count(&one) == count(&other) {
        true => counts(random),
        false => asked(random, [one, other]),
    }
}

/// As many words, and the lists part at the first one.
pub fn early(random: &mut Random) -> Call {
    apart(random, |place| place == 0)
}

/// As many words, and the lists part behind common ones.
pub fn late(random: &mut Random) -> Call {
    apart(random, |place| place > 0)
}

/// As many words, and the lists part at a place that is meant.
fn apart(random: &mut Random, is_meant: fn(usize) -> bool) -> Call {
    loop {
        let sides = near(random);
        let [one, other] = &sides;
        let place = first_difference(&words(one), &words(other));
        if count(one) == count(other) && place.is_some_and(is_meant) {
            return asked(random, sides);
        }
    }
}

/// A product of sums, and the same one with letters exchanged, with its factors in another order, or changed.
fn near(random: &mut Random) -> Sides {
    let pool = pool(random);
    let mut factors = factors(random, &pool);
    let one = product(random, &factors);
    let other = match random.below(8) {
        0 => {
            let mut images = pool.clone();
            random.shuffle(&mut images);
            with_letters(&one, &pool, &images)
        }
        1 => {
            random.shuffle(&mut factors);
            product(random, &factors)
        }
        _ => {
            let factors = changed(random, &pool, &factors);
            product(random, &factors)
        }
    };
    [one, other]
}

/// No word or one on a side, the empty word in some calls.
pub fn few(random: &mut Random) -> Call {
    let pool = pool(random);
    let one = few_words(random, &pool);
    let other = match random.below(3) {
        0 => led_on(random, &one),
        _ => few_words(random, &pool),
    };
    match one == other {
        true => few(random),
        false => asked(random, [one, other]),
    }
}

fn few_words(random: &mut Random, pool: &[u16]) -> Term {
    let length = random.between(1, 6);
    let pool = match random.below(4) {
        0 => &[ONE],
        1 => return wordless(random, pool),
        _ => pool,
    };
    let word = (0..length).map(|_| random.pick(pool)).collect();
    let mut parts = vec![spelled(random, word)];
    if random.percent(30) {
        parts.push(wordless(random, pool).run().to_vec());
    }
    random.shuffle(&mut parts);
    Term::of(joined(random, parts, &[SUM]))
}

/// The bytes of the line, one fewer or more, or none.
pub fn room(random: &mut Random) -> Call {
    let makes: [Make; 5] = [yes, counts, early, late, few];
    let room = random.pick(&[0, 7, 8, 9, 10]);
    Call {
        room,
        ..random.pick(&makes)(random)
    }
}

/// Jobs about the bounds of refusals 2 to 6, and several reasons at once.
pub fn faults(random: &mut Random) -> Call {
    let makes: [Make; 6] = [
        refused::sides,
        refused::nodes,
        refused::many_letters,
        refused::limits,
        refused::equal,
        refused::several,
    ];
    of_others(random, &makes)
}

/// Malformed lines, damaged texts, and several right lines.
pub fn lines(random: &mut Random) -> Call {
    let makes: [Make; 5] = [
        broken::lines,
        broken::lines,
        broken::damaged,
        broken::damaged,
        spoilt::right_lines,
    ];
    of_others(random, &makes)
}

/// A job made for the other entries. With too little room there is a reason more to refuse.
fn of_others(random: &mut Random, makes: &[Make]) -> Call {
    let room = random.pick(&[0, 8, 9, PROGRAM_ROOM]);
    Call {
        entry: Entry::Same,
        slots: 0,
        room,
        ..random.pick(makes)(random)
    }
}
