//! Random letters and terms.

use super::random::Random;
use crate::plain::job::MOST_LETTERS;
use crate::plain::term::{FIRST_C, ONE, PRODUCT, SUM, Term, ZERO};

/// The term's text.
pub fn shown(term: &Term) -> Vec<u8> {
    term.show().into_bytes()
}

/// Different letters, small ones likelier, in no order. Where c letters are drawn, they take the place of some.
pub fn letters(random: &mut Random, count: usize) -> Vec<u16> {
    let found = v_letters(random, count);
    if !random.has_c() {
        return found;
    }
    let share = random.pick(&[20, 40, 60, 100]);
    let mut kept = found;
    kept.retain(|_| !random.percent(share));
    add_c(random, &mut kept, count);
    random.shuffle(&mut kept);
    kept
}

/// Different v letters, small ones likelier, in no order.
pub fn v_letters(random: &mut Random, count: usize) -> Vec<u16> {
    let mut found: Vec<u16> = Vec::new();
    while found.len() < count {
        let letter = small_number(random, &[5, 9, 99, 999]);
        if !found.contains(&letter) {
            found.push(letter);
        }
    }
    found
}

/// A c letter, small ones likelier.
pub fn c_letter(random: &mut Random) -> u16 {
    FIRST_C + small_number(random, &[2, 9, 99])
}

/// A number up to one of these, that one likelier than the others.
fn small_number(random: &mut Random, bounds: &[usize]) -> u16 {
    let most = random.pick(bounds);
    random.below(most + 2).min(most) as u16
}

/// Adds c letters until there are so many letters.
fn add_c(random: &mut Random, found: &mut Vec<u16>, total: usize) {
    while found.len() < total {
        let letter = c_letter(random);
        if !found.contains(&letter) {
            found.push(letter);
        }
    }
}

/// So many v letters; where c letters are drawn, some of them besides, up to so many in all.
pub fn mixed(random: &mut Random, count: usize, most: usize) -> Vec<u16> {
    let total = match random.has_c() {
        true => random.between(count, most.max(count)),
        false => return v_letters(random, count),
    };
    of_both(random, count, total)
}

/// So many v letters, and c letters up to so many letters in all.
pub fn of_both(random: &mut Random, count: usize, total: usize) -> Vec<u16> {
    let mut found = v_letters(random, count);
    add_c(random, &mut found, total);
    random.shuffle(&mut found);
    found
}

/// So many letters; where c letters are drawn, in place of some v letters or up to two more beside six.
pub fn replaced_or_mixed(random: &mut Random, count: usize) -> Vec<u16> {
    match random.has_c() && random.percent(50) {
        true => mixed(random, count, MOST_LETTERS + 2),
        false => letters(random, count),
    }
}

/// Up to six letters, mostly few; where c letters are drawn, sometimes more.
pub fn some_letters(random: &mut Random) -> Vec<u16> {
    let count = random.pick(&[0, 1, 1, 2, 2, 2, 3, 3, 4, 5, MOST_LETTERS]);
    if random.has_c() && random.percent(30) {
        return mixed(random, count, 2 * MOST_LETTERS);
    }
    letters(random, count)
}

/// A term of this size, which is odd, over these letters, 0 and 1.
pub fn term(random: &mut Random, size: usize, letters: &[u16]) -> Term {
    let mut run = Vec::new();
    grow(random, size, letters, &mut run);
    Term::of(run)
}

/// A term of at most this size.
pub fn term_up_to(random: &mut Random, most: usize, letters: &[u16]) -> Term {
    let size = 2 * random.below(most.div_ceil(2)) + 1;
    term(random, size, letters)
}

fn grow(random: &mut Random, size: usize, letters: &[u16], run: &mut Vec<u16>) {
    if size == 1 {
        run.push(atom(random, letters));
        return;
    }
    run.push(random.pick(&[SUM, PRODUCT]));
    let left = 2 * random.below((size - 1) / 2) + 1;
    grow(random, left, letters, run);
    grow(random, size - 1 - left, letters, run);
}

fn atom(random: &mut Random, letters: &[u16]) -> u16 {
    match random.below(8) {
        0 => ZERO,
        1 => ONE,
        _ if letters.is_empty() => random.pick(&[ZERO, ONE]),
        _ => random.pick(letters),
    }
}

/// The parts joined two by two, at random places, by these operators.
pub fn joined(random: &mut Random, mut parts: Vec<Vec<u16>>, operators: &[u16]) -> Vec<u16> {
    while parts.len() > 1 {
        let at = random.below(parts.len() - 1);
        let right = parts.remove(at + 1);
        parts[at] = [vec![random.pick(operators)], parts[at].clone(), right].concat();
    }
    parts.remove(0)
}

/// A term that holds each of these letters, in any order.
pub fn holding(random: &mut Random, letters: &[u16]) -> Term {
    let mut parts: Vec<Vec<u16>> = letters.iter().map(|&letter| vec![letter]).collect();
    if parts.is_empty() {
        parts.push(vec![random.pick(&[ZERO, ONE])]);
    }
    random.shuffle(&mut parts);
    Term::of(joined(random, parts, &[SUM, PRODUCT]))
}
