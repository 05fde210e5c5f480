//! Jobs of one right side over as many different letters as both sides hold.

use super::draft::Draft;
use super::random::Random;
use super::refused::MOST_HELD;
use super::searched::{LARGEST, node_limit, rewritten};
use super::terms::{holding, of_both};
use crate::Call;
use crate::plain::job::MOST_LETTERS;
use crate::plain::term::{PRODUCT, Term, ZERO};

/// Eleven letters and more: sides that lines or one law lead from one to the other, and sides of 32 letters.
pub fn letters(random: &mut Random) -> Call {
    match random.below(5) {
        0 | 1 => led(random).find(random),
        2 => times_zero(random).find(random),
        _ => apart(random).any(random),
    }
}

/// So many letters, mostly as many v letters among them as may be.
fn pool(random: &mut Random, total: usize) -> Vec<u16> {
    let count = random.pick(&[
        0,
        3,
        MOST_LETTERS,
        MOST_LETTERS,
        MOST_LETTERS,
        MOST_LETTERS + 1,
    ]);
    of_both(random, count, total)
}

/// A term that holds up to sixteen letters, and the end of one or two lines from it.
fn led(random: &mut Random) -> Draft {
    let total = random.between(MOST_HELD - 5, MOST_HELD);
    let pool = pool(random, total);
    let left = holding(random, &pool);
    let lines = random.pick(&[1, 1, 2]);
    let right = (0..lines).fold(left.clone(), |term, _| rewritten(random, &term, LARGEST));
    if left == right {
        return led(random);
    }
    let (size, depth) = LARGEST;
    let steps = lines + random.below(2);
    let nodes = node_limit(random, 20_000, size);
    drafted(random, [left, right], [steps, size, depth, nodes])
}

/// 0, and 0 times a term that holds up to fifteen letters.
fn times_zero(random: &mut Random) -> Draft {
    let total = random.between(MOST_HELD - 5, MOST_HELD - 1);
    let pool = pool(random, total);
    let factor = holding(random, &pool).run().to_vec();
    let run = match random.below(2) {
        0 => [&[PRODUCT, ZERO], &factor[..]].concat(),
        _ => [&[PRODUCT], &factor[..], &[ZERO]].concat(),
    };
    drafted(random, [Term::of(vec![ZERO]), Term::of(run)], [0; 4])
}

/// Two terms that hold up to sixteen letters each, few or none of them in both.
fn apart(random: &mut Random) -> Draft {
    let total = random.pick(&[24, 30, 31, 2 * MOST_HELD, 2 * MOST_HELD]);
    let pool = pool(random, total);
    let sides = [&pool[..total / 2], &pool[total / 2..]];
    let sides = sides.map(|letters| holding(random, letters));
    drafted(random, sides, [1, 9, 5, 10])
}

/// The job with these sides, in any order.
fn drafted(random: &mut Random, mut sides: [Term; 2], limits: [usize; 4]) -> Draft {
    random.shuffle(&mut sides);
    let [left, right] = &sides;
    Draft::new(left, [right], limits)
}
