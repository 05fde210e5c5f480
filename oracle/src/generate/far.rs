//! Jobs of WEIGH about what lies far off: ends of long paths, and nones about the number of terms within cost.

use super::changes::with_letters;
use super::draft::Draft;
use super::random::Random;
use super::searched::{LARGEST, node_limit, rewritten};
use super::terms::{joined, letters, term, term_up_to};
use super::weigh::{COST, NODES, WeighDraft, any_weights};
use crate::Call;
use crate::plain::MOST_SLOTS;
use crate::plain::job::BOUNDS;
use crate::plain::law::LAWS;
use crate::plain::term::{SUM, Term};
use crate::plain::weigh::job::MOST_COST;

/// The depth within which the paths below are long.
const LONG_DEPTH: usize = 5;

/// Sides between which the shortest path within their size and that depth has 60, 52, 33 and 37 lines, with no more than
/// 1,368, 332, 392 and 1,220 terms in reach.
const LONG: [[&str; 2]; 4] = [
    [
        "+ * * v0 v1 v0 * * v0 v0 * * + v0 v0 v0 * v0 + v0 1",
        "+ * * * + v0 v0 v0 * v0 + 1 v0 * v0 v0 * v0 * v1 v0",
    ],
    [
        "+ * * * + v0 v0 v0 * v0 + v0 v0 * v0 v0 * v0 v0",
        "+ * v0 v0 * * v0 v0 * * + v0 v0 v0 * v0 + v0 v0",
    ],
    [
        "+ * v0 v0 * * v0 v0 * * * v1 v1 * v1 v0 + v0 v0",
        "+ * * v0 * v0 v1 * v1 * + v1 v1 * v0 v0 * v0 v0",
    ],
    [
        "+ * * * v0 v0 * v1 v1 + v1 v1 * v0 v1",
        "+ * v0 v1 * + v0 v0 * * v0 v1 * v1 v1",
    ],
];

/// Ends of paths among small terms that do not grow, under the largest cost: totals up to 99.
pub fn far(random: &mut Random) -> Call {
    far_draft(random).weigh(random)
}

pub fn far_draft(random: &mut Random) -> WeighDraft {
    let sides = match random.below(3) {
        0 => regrouped(random),
        _ => walked(random),
    };
    let [left, right] = &sides;
    if left == right {
        return far_draft(random);
    }
    let (size, depth) = measures(&sides);
    let depth = random.pick(&[depth, depth + 1, LARGEST.1]);
    let nodes = match random.below(10) {
        0 => BOUNDS[3] as usize,
        _ => node_limit(random, 60_000, size),
    };
    let draft = drafted(random, [left, right], [size, depth, nodes]);
    let weights = any_weights(random);
    WeighDraft::new(&draft, &weights)
}

/// The size and the depth that both sides keep.
fn measures([left, right]: &[Term; 2]) -> (usize, usize) {
    let size = left.size().max(right.size());
    (size, left.depth().max(right.depth()))
}

/// Sides that are listed, or two terms on the shortest path between them, over any letters: paths of up to 60 lines.
pub fn long(random: &mut Random) -> Call {
    let call = long_draft(random).weigh(random);
    match random.percent(70) {
        true => Call {
            slots: MOST_SLOTS,
            room: LONG_ROOM,
            ..call
        },
        false => call,
    }
}

pub fn long_draft(random: &mut Random) -> WeighDraft {
    let sides = random.pick(&LONG);
    let sides = sides.map(|side| Term::read(side.as_bytes()).expect("a term"));
    let (size, _) = measures(&sides);
    let limits = [size, LONG_DEPTH, random.between(1_400, 2_000)];
    let sides = match random.percent(60) {
        true => on_the_way(random, &sides, limits),
        false => sides,
    };
    let new = letters(random, 2);
    let [left, right] = sides.map(|side| with_letters(&side, &[0, 1], &new));
    let draft = drafted(random, [&left, &right], limits);
    let weights = match random.below(3) {
        0 => [1; LAWS.len()],
        1 => [(); LAWS.len()].map(|()| random.between(1, 2)),
        _ => any_weights(random),
    };
    WeighDraft::new(&draft, &weights)
}

/// Room for the longest answers made here.
const LONG_ROOM: usize = 262_144;

/// Two different terms on the shortest path between these sides.
fn on_the_way(random: &mut Random, sides: &[Term; 2], limits: [usize; 3]) -> [Term; 2] {
    let draft = drafted(random, sides.each_ref(), limits);
    let outcome = WeighDraft::new(&draft, &[1; LAWS.len()]).outcome();
    let (path, _) = outcome.proved().expect("they are the ends of a path");
    let first = random.below(path.len());
    let last = random.between(first, path.len() - 1);
    [path[first].source.clone(), path[last].target.clone()]
}

/// A small term, and the end of a walk from it on which no term is larger.
fn walked(random: &mut Random) -> [Term; 2] {
    let count = random.between(1, 4);
    let pool = letters(random, count);
    let size = random.pick(&[5, 7, 7, 7, 9]);
    let left = term(random, size, &pool);
    let count = random.between(5, 40);
    let right = (0..count).fold(left.clone(), |term, _| {
        rewritten(random, &term, (size, LARGEST.1))
    });
    [left, right]
}

/// Two sums of the same letters, grouped and ordered each in its own way.
fn regrouped(random: &mut Random) -> [Term; 2] {
    let count = random.pick(&[4, 4, 4, 4, 5]);
    let pool = letters(random, count);
    [(); 2].map(|()| {
        let mut atoms: Vec<Vec<u16>> = pool.iter().map(|&letter| vec![letter]).collect();
        random.shuffle(&mut atoms);
        Term::of(joined(random, atoms, &[SUM]))
    })
}

/// The job under the largest cost, its sides in any order.
fn drafted(random: &mut Random, mut sides: [&Term; 2], limits: [usize; 3]) -> Draft {
    random.shuffle(&mut sides);
    let [size, depth, nodes] = limits;
    let [left, right] = sides;
    Draft::new(left, [right], [MOST_COST as usize, size, depth, nodes])
}

/// Nones about the number of terms that lines within cost lead to: as many nodes, one fewer, one more.
pub fn reach(random: &mut Random) -> Call {
    let count = random.between(0, 3);
    let pool = letters(random, count);
    let most = random.pick(&[1, 3, 5, 5, 7, 9, 15]);
    let [left, right] = [(); 2].map(|()| term_up_to(random, most, &pool));
    if left == right {
        return reach(random);
    }
    let start = left.clone().min(right.clone());
    let size = (start.size() + random.pick(&[0, 2, 2, 4])).min(LARGEST.0);
    let depth = (start.depth() + random.pick(&[0, 1, 2])).min(LARGEST.1);
    let budget = random.pick(&[4_000, 20_000, 60_000]);
    let most = (budget / (size * size)).clamp(2, BOUNDS[3] as usize - 1);
    let draft = drafted(random, [&left, &right], [size, depth, most + 1]);
    let mut draft = WeighDraft::new(&draft, &any_weights(random));
    let cost = largest_cost(&mut draft, most);
    draft.set(COST, cost);
    let opened = draft.outcome().expanded;
    draft.set(NODES, random.around(opened));
    let noted = draft.outcome().noted;
    let call = draft.weigh(random);
    let slots = match random.below(6) {
        0 => call.slots,
        1 => noted,
        _ => call.slots.max(noted),
    };
    Call { slots, ..call }
}

/// The largest cost, of some, under which no more than so many terms are opened.
fn largest_cost(draft: &mut WeighDraft, most: usize) -> usize {
    let mut costs = [99, 60, 40, 25, 16, 12, 9, 7, 5, 4, 3, 2, 1].into_iter();
    let is_few = |cost: &usize| {
        draft.set(COST, *cost);
        draft.outcome().expanded <= most
    };
    costs.find(is_few).unwrap_or(0)
}

/// The most nodes: large sides under the largest limits, or smaller ones whose noted terms have slots.
pub fn heavy(random: &mut Random) -> Call {
    let sides = match random.below(3) {
        0 => large(random),
        _ => wide(random),
    };
    let [left, right] = &sides;
    if left == right {
        return heavy(random);
    }
    let (size, depth) = match measures(&sides) {
        (size, _) if size > MOST_WIDE + 2 => (LARGEST.0, random.between(8, LARGEST.1)),
        (size, _) => (size + random.pick(&[0, 0, 2]), LARGEST.1),
    };
    let nodes = BOUNDS[3] as usize - random.below(2);
    let draft = drafted(random, [left, right], [size, depth, nodes]);
    let mut draft = WeighDraft::new(&draft, &any_weights(random));
    draft.set(COST, random.between(20, MOST_COST as usize));
    Call {
        slots: random.pick(&[400, MOST_SLOTS, MOST_SLOTS, MOST_SLOTS + 1, 200_000]),
        room: LONG_ROOM,
        ..draft.weigh(random)
    }
}

/// A term, and the end of a walk from it.
fn large(random: &mut Random) -> [Term; 2] {
    let size = 2 * random.between(7, 15) + 1;
    let count = random.between(2, 12);
    ended(random, size, count, LARGEST.0)
}

/// The most nodes of a smaller term.
const MOST_WIDE: usize = 13;

/// Likewise with fewer nodes, of which the walk adds no more than two.
fn wide(random: &mut Random) -> [Term; 2] {
    let size = random.pick(&[7, 9, 9, 11, MOST_WIDE]);
    let count = random.between(2, 12);
    ended(random, size, count, size + 2)
}

fn ended(random: &mut Random, size: usize, count: usize, most: usize) -> [Term; 2] {
    let pool = letters(random, 4);
    let left = term(random, size, &pool);
    let right = (0..count).fold(left.clone(), |term, _| {
        rewritten(random, &term, (most, LARGEST.1))
    });
    [left, right]
}
