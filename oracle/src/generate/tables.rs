//! Changes of c letters, after which an equation is about other tables.

use super::changes::{Sides, disguised, with_letters};
use super::random::Random;
use super::terms::{c_letter, v_letters};
use crate::plain::term::{is_c, is_v, letters_of};

/// One c letter exchanged for a new one.
pub fn other_table(random: &mut Random, sides: &Sides) -> Sides {
    let sides = with_new_c(random, sides);
    disguised(random, &sides)
}

/// One c letter, if there is one, exchanged everywhere for one that is not in the equation.
pub fn with_new_c(random: &mut Random, sides: &Sides) -> Sides {
    let met = of_sides(sides, is_c);
    if met.is_empty() {
        return sides.clone();
    }
    let old = random.pick(&met);
    everywhere(sides, &[old], &[new_c(random, &met)])
}

/// Two c letters exchanged for each other everywhere, or one for a new one where there are no two.
pub fn swapped(random: &mut Random, sides: &Sides) -> Sides {
    let mut met = of_sides(sides, is_c);
    random.shuffle(&mut met);
    let sides = match met[..] {
        [one, other, ..] => everywhere(sides, &[one, other], &[other, one]),
        _ => with_new_c(random, sides),
    };
    disguised(random, &sides)
}

/// A c letter made a new v letter everywhere, or a v letter a new c letter.
pub fn freed(random: &mut Random, sides: &Sides) -> Sides {
    let [c_met, v_met] = [is_c, is_v].map(|is_meant| of_sides(sides, is_meant));
    let (old, new) = match v_met.is_empty() || random.percent(50) {
        true => (&c_met, new_v(random, &v_met)),
        false => (&v_met, new_c(random, &c_met)),
    };
    let sides = everywhere(sides, &[random.pick(old)], &[new]);
    disguised(random, &sides)
}

/// The letters of this sort in both sides.
fn of_sides([left, right]: &Sides, is_meant: fn(u16) -> bool) -> Vec<u16> {
    let mut met = letters_of(left, right);
    met.retain(|&letter| is_meant(letter));
    met
}

fn everywhere(sides: &Sides, old: &[u16], new: &[u16]) -> Sides {
    sides.each_ref().map(|side| with_letters(side, old, new))
}

/// A c letter that is none of these.
fn new_c(random: &mut Random, met: &[u16]) -> u16 {
    let letter = c_letter(random);
    match met.contains(&letter) {
        true => new_c(random, met),
        false => letter,
    }
}

/// A v letter that is none of these.
fn new_v(random: &mut Random, met: &[u16]) -> u16 {
    let letter = v_letters(random, 1)[0];
    match met.contains(&letter) {
        true => new_v(random, met),
        false => letter,
    }
}
