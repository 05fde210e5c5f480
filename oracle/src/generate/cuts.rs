//! Nones about the edge of `cut`: as many nodes as there are terms at a distance below steps, one fewer, one more.

use super::draft::Draft;
use super::plans;
use super::random::Random;
use super::searched::{LARGEST, rewritten};
use super::terms::{letters, term, term_up_to};
use crate::plain::{
    job::{BOUNDS, Job, Limits, MOST_NODES},
    search::{Outcome, search},
    term::{C_LETTERS, FIRST_C, Term},
};
use crate::{Call, Entry};

/// One right side, mostly out of reach.
pub fn one(random: &mut Random) -> Call {
    let pool = letters(random, 3);
    let most = random.pick(&[1, 3, 5, 5, 7, 7, 9, 15, 31]);
    let left = term(random, most, &pool);
    let steps = random.pick(&STEPS);
    let right = match random.below(3) {
        0 => (0..=steps.min(5)).fold(left.clone(), |term, _| rewritten(random, &term, LARGEST)),
        1 => term(random, most, &pool),
        _ => term_up_to(random, most, &pool),
    };
    if left == right {
        return one(random);
    }
    let start = left.clone().min(right.clone());
    let size = (start.size() + random.pick(&[0, 2, 2, 4])).min(LARGEST.0);
    let depth = (start.depth() + random.pick(&[0, 1, 1, 2])).min(LARGEST.1);
    let mut sides = [&left, &right];
    random.shuffle(&mut sides);
    let draft = Draft::new(sides[0], [sides[1]], [steps, size, depth, 0]);
    at_edge(random, draft)
}

/// Several right sides, half of them times 0, which is mostly out of reach.
pub fn several(random: &mut Random) -> Call {
    let mut draft = plans::draft(random);
    let sides = draft.sides();
    for right in &mut draft.0[1..sides] {
        let nodes = right.split(|&byte| byte == b' ').count();
        if nodes + 2 <= MOST_NODES && random.percent(50) {
            *right = [b"* ", &right[..], b" 0"].concat();
        }
    }
    if random.percent(60) {
        draft.set_limit(0, random.pick(&STEPS));
    }
    at_edge(random, draft)
}

/// Step limits; under the largest a search may end since no new term is left.
const STEPS: [usize; 10] = [0, 1, 2, 2, 3, 3, 4, 4, 6, 16];

/// FIND with nodes about the number of terms at a distance below steps, or in one of five below a smaller number.
/// Where there are too many such terms, steps is lowered.
fn at_edge(random: &mut Random, mut draft: Draft) -> Call {
    let Job { equations, limits } = Job::read(Entry::Find, &draft.bytes()).expect("a good job");
    let (left, _) = equations[0].oriented();
    let searched = |steps, nodes| fruitless(left, &limits, steps, nodes);
    let most = most_opened(random, equations.len(), limits.size);
    let is_few = |steps: &usize| searched(*steps, most + 1).expanded <= most;
    let steps = match is_few(&limits.steps) {
        true => limits.steps,
        false => (0..limits.steps).take_while(is_few).last().unwrap_or(0),
    };
    let nearer = match random.below(5) {
        0 => random.below(steps + 1),
        _ => steps,
    };
    let nodes = random.around(searched(nearer, most).expanded);
    draft.set_limit(0, steps);
    draft.set_limit(3, nodes);
    let call = draft.find(random);
    with_slots(random, call, searched(steps, nodes).noted)
}

/// The most terms to open, the fewer, the more it costs.
fn most_opened(random: &mut Random, rights: usize, size: usize) -> usize {
    let budget = random.pick(&[4_000, 20_000, 20_000, 60_000]) / rights.div_ceil(4);
    (budget / (size * size)).clamp(2, BOUNDS[3] as usize - 1)
}

/// The search from left for a letter that no job has.
fn fruitless(left: &Term, limits: &Limits, steps: usize, nodes: usize) -> Outcome {
    let limits = Limits {
        steps,
        nodes,
        ..*limits
    };
    let stranger = Term::of(vec![FIRST_C + C_LETTERS as u16]);
    search(left, &stranger, &limits, usize::MAX).expect("slots enough")
}

/// Mostly slots enough for a none.
fn with_slots(random: &mut Random, call: Call, noted: usize) -> Call {
    let slots = match random.below(6) {
        0 => call.slots,
        1 => noted,
        _ => call.slots.max(noted),
    };
    Call { slots, ..call }
}
