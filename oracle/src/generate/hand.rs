//! Jobs of WEIGH whose nodes run out, mostly with a path in hand: about the terms by which right is noted, its path is
//! replaced and right comes up.

use super::draft::Draft;
use super::far::{far_draft, long_draft};
use super::random::Random;
use super::searched::{LARGEST, rewritten};
use super::terms::{letters, term_up_to};
use super::weigh::{
    COST, NODES, WeighDraft, alike_draft, any_weights, detour, draft, with_room, with_slots,
};
use crate::Call;
use crate::plain::job::BOUNDS;
use crate::plain::weigh::job::MOST_COST;
use crate::plain::weigh::search::{End, moments};

/// A job, after how many opened terms right is noted or its path replaced, and after how many it is in hand at last.
struct Hand {
    draft: WeighDraft,
    moments: Vec<usize>,
    last: usize,
}

impl Hand {
    /// None if right is in hand under no node limit up to the job's own.
    fn of(draft: WeighDraft) -> Option<Hand> {
        let moments = moments(&draft.job());
        let weighed = draft.outcome();
        let last = match weighed.end {
            End::Proved { .. } => weighed.expanded.checked_sub(1)?,
            _ => weighed.expanded,
        };
        let is_met = moments.first().is_some_and(|&first| first <= last);
        is_met.then_some(Hand {
            draft,
            moments,
            last,
        })
    }

    /// Whether the path is replaced while it is in hand.
    fn is_replaced(&self) -> bool {
        self.moments
            .get(1)
            .is_some_and(|&second| second <= self.last)
    }

    fn with_nodes(mut self, nodes: usize) -> WeighDraft {
        self.draft.set(NODES, nodes.min(BOUNDS[3] as usize));
        self.draft
    }
}

/// How often a job with a path in hand is looked for.
const TRIES: usize = 12;

/// Such a job, or the last one tried.
fn found(
    random: &mut Random,
    mut make: impl FnMut(&mut Random) -> WeighDraft,
    is_it: impl Fn(&Hand) -> bool,
) -> Result<Hand, WeighDraft> {
    for _ in 1..TRIES {
        if let Some(hand) = Hand::of(make(random)).filter(&is_it) {
            return Ok(hand);
        }
    }
    Err(make(random))
}

/// A job of these with nodes from the first to the last under which right is in hand; in one of eight with one fewer, or
/// one more, where right is not noted or comes up.
fn with_hand(random: &mut Random, make: impl FnMut(&mut Random) -> WeighDraft) -> WeighDraft {
    let hand = match found(random, make, |_| true) {
        Ok(hand) => hand,
        Err(draft) => return draft,
    };
    let (first, last) = (hand.moments[0], hand.last);
    let nodes = match random.below(16) {
        0 => first - 1,
        1 => last + 1,
        2..6 => first,
        6..10 => last,
        _ => random.between(first, last),
    };
    hand.with_nodes(nodes)
}

/// Any equation, any weights.
pub fn in_hand(random: &mut Random) -> Call {
    with_hand(random, draft).weigh(random)
}

/// All weights alike.
pub fn even(random: &mut Random) -> Call {
    with_hand(random, alike_draft).weigh(random)
}

/// Ends of long walks, and in one of eight calls sides up to 60 lines apart.
pub fn far(random: &mut Random) -> Call {
    let draft = match random.below(8) {
        0 => with_hand(random, long_draft),
        _ => with_hand(random, far_draft),
    };
    draft.weigh(random)
}

/// Nodes about a term by which the path of right is replaced.
pub fn replaced(random: &mut Random) -> Call {
    let make = |random: &mut Random| match random.below(3) {
        0 => draft(random),
        _ => detour(random),
    };
    let hand = match found(random, make, Hand::is_replaced) {
        Ok(hand) => hand,
        Err(draft) => return draft.weigh(random),
    };
    let later = random.pick(&hand.moments[1..]);
    let nodes = match random.below(4) {
        0 => random.between(later, later.max(hand.last)),
        _ => random.around(later),
    };
    hand.with_nodes(nodes).weigh(random)
}

/// Cost just below, at or just above the total of a path in hand.
pub fn cost(random: &mut Random) -> Call {
    let mut draft = with_hand(random, draft);
    if let End::AtMost { total, .. } = draft.outcome().end {
        draft.set(COST, random.around(total).min(MOST_COST as usize));
    }
    draft.weigh(random)
}

/// Sides one line apart, and one node, or a few.
pub fn one_node(random: &mut Random) -> Call {
    let pool = letters(random, 3);
    let most = random.pick(&[1, 3, 5, 7, 9]);
    let left = term_up_to(random, most, &pool);
    let right = rewritten(random, &left, LARGEST);
    if left == right {
        return one_node(random);
    }
    let size = left.size().max(right.size()) + random.pick(&[0, 0, 2]);
    let depth = left.depth().max(right.depth()) + random.below(2);
    let nodes = random.pick(&[1, 1, 1, 2, 3]);
    let cost = random.pick(&[9, 9, 18, MOST_COST as usize]);
    let limits = [cost, size.min(LARGEST.0), depth.min(LARGEST.1), nodes];
    let mut sides = [&left, &right];
    random.shuffle(&mut sides);
    let draft = Draft::new(sides[0], [sides[1]], limits);
    let weights = any_weights(random);
    WeighDraft::new(&draft, &weights).weigh(random)
}

/// As many slots as terms are noted, one fewer, one more.
pub fn slots(random: &mut Random) -> Call {
    let draft = with_hand(random, draft);
    with_slots(random, &draft)
}

/// About as much room as the answer needs.
pub fn room(random: &mut Random) -> Call {
    let draft = with_hand(random, draft);
    let weighed = draft.outcome();
    with_room(random, &draft, &weighed)
}
