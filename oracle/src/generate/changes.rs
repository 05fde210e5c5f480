//! What an equation is changed into: itself in another form, a near miss, or one with the same words.

use super::random::Random;
use super::searched::{LARGEST, rewritten};
use super::terms::{letters, v_letters};
use crate::plain::job::MOST_LETTERS;
use crate::plain::term::{Term, is_letter, letters_of, v_letters_of};

/// Left and right.
pub type Sides = [Term; 2];

/// Changes an equation; what comes out may have equal sides.
pub type Change = fn(&mut Random, &Sides) -> Sides;

/// The sides with each v letter exchanged for another one, no two for the same.
pub fn with_other_letters(random: &mut Random, sides: &Sides) -> Sides {
    let old = v_letters_of(&sides[0], &sides[1]);
    let new = v_letters(random, old.len());
    sides.each_ref().map(|side| with_letters(side, &old, &new))
}

pub fn exchanged(_: &mut Random, [left, right]: &Sides) -> Sides {
    [right.clone(), left.clone()]
}

pub fn turned(random: &mut Random, sides: &Sides) -> Sides {
    let sides = exchanged(random, sides);
    with_other_letters(random, &sides)
}

/// With other letters, with its sides exchanged, both or neither.
pub fn disguised(random: &mut Random, sides: &Sides) -> Sides {
    let same: Change = |_, sides| sides.clone();
    let ways = [with_other_letters, exchanged, turned, same];
    random.pick(&ways)(random, sides)
}

/// Two letters made one.
pub fn merged(random: &mut Random, sides: &Sides) -> Sides {
    let [one, other] = two_letters(random, sides);
    let sides = sides.each_ref();
    let sides = sides.map(|side| with_letters(side, &[one], &[other]));
    disguised(random, &sides)
}

/// Another letter in one place, of the equation or, if there are few, a new one.
pub fn one_place(random: &mut Random, sides: &Sides) -> Sides {
    let mut met = all_letters(sides);
    if met.len() < MOST_LETTERS {
        met.extend(letters(random, 2));
    }
    let sides = on_one_side(random, sides, |random, side| {
        let mut run = side.run().to_vec();
        let places: Vec<usize> = (0..run.len()).filter(|&at| is_letter(run[at])).collect();
        if !places.is_empty() {
            let at = random.pick(&places);
            let others = met.iter().copied().filter(|&letter| letter != run[at]);
            run[at] = random.pick(&Vec::from_iter(others));
        }
        Term::of(run)
    });
    disguised(random, &sides)
}

/// Two letters exchanged on one side only.
pub fn crossed(random: &mut Random, sides: &Sides) -> Sides {
    let [one, other] = two_letters(random, sides);
    let sides = on_one_side(random, sides, |_, side| {
        with_letters(side, &[one, other], &[other, one])
    });
    disguised(random, &sides)
}

/// Letters renamed on one side only, among those of the equation or to any.
pub fn half_renamed(random: &mut Random, sides: &Sides) -> Sides {
    let old = all_letters(sides);
    let mut new = old.clone();
    match random.below(3) {
        0 => new = letters(random, old.len()),
        _ => random.shuffle(&mut new),
    }
    let sides = on_one_side(random, sides, |_, side| with_letters(side, &old, &new));
    disguised(random, &sides)
}

/// One side rewritten by a law.
pub fn one_rewritten(random: &mut Random, sides: &Sides) -> Sides {
    let sides = on_one_side(random, sides, |random, side| {
        rewritten(random, side, LARGEST)
    });
    disguised(random, &sides)
}

pub fn both_rewritten(random: &mut Random, sides: &Sides) -> Sides {
    let sides = sides.each_ref().map(|side| led_on(random, side));
    disguised(random, &sides)
}

/// The end of a chain of 1 to 4 lines.
pub fn led_on(random: &mut Random, start: &Term) -> Term {
    let lines = random.between(1, 4);
    (0..lines).fold(start.clone(), |side, _| rewritten(random, &side, LARGEST))
}

pub fn in_any_way(random: &mut Random, sides: &Sides) -> Sides {
    let ways: [Change; 7] = [
        disguised,
        merged,
        one_place,
        crossed,
        half_renamed,
        one_rewritten,
        both_rewritten,
    ];
    random.pick(&ways)(random, sides)
}

fn all_letters([left, right]: &Sides) -> Vec<u16> {
    letters_of(left, right)
}

/// Two letters of the equation, or others where it has fewer.
fn two_letters(random: &mut Random, sides: &Sides) -> [u16; 2] {
    let mut met = all_letters(sides);
    if met.len() < 2 {
        met = letters(random, 2);
    }
    random.shuffle(&mut met);
    [met[0], met[1]]
}

/// The term with new letters in the places of the old ones.
pub fn with_letters(term: &Term, old: &[u16], new: &[u16]) -> Term {
    let other = |code: &u16| match old.iter().position(|letter| letter == code) {
        Some(at) => new[at],
        None => *code,
    };
    Term::of(term.run().iter().map(other).collect())
}

fn on_one_side(
    random: &mut Random,
    sides: &Sides,
    change: impl Fn(&mut Random, &Term) -> Term,
) -> Sides {
    let mut sides = sides.clone();
    let at = random.below(2);
    sides[at] = change(random, &sides[at]);
    sides
}
