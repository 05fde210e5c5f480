//! Jobs of WEIGH that pass every refusal before 7, of the equations that FIND is asked about: lightest paths under many
//! weights, detours, edges of limits, slots and room.

use super::draft::{Draft, call};
use super::random::Random;
use super::searched;
use crate::plain::MOST_SLOTS;
use crate::plain::job::BOUNDS;
use crate::plain::law::LAWS;
use crate::plain::weigh::job::{KEYS, MOST_COST, WeighJob, Weights, write};
use crate::plain::weigh::search::{End, Weighed, weigh};
use crate::plain::weigh::text;
use crate::{Call, Entry};

/// The values of the lines: left, right, cost, size, depth, nodes, weights; any bytes.
#[derive(Clone)]
pub struct WeighDraft(pub [Vec<u8>; KEYS.len()]);

/// Lines that are not sides.
pub const COST: usize = 2;
pub const SIZE: usize = 3;
pub const DEPTH: usize = 4;
pub const NODES: usize = 5;
pub const WEIGHTS: usize = 6;

impl WeighDraft {
    /// A job of FIND with one right side, its steps taken for the cost, and these weights.
    pub fn new(draft: &Draft, weights: &Weights) -> WeighDraft {
        let values = draft.0.iter().cloned().chain([shown(weights)]);
        let values = values.collect::<Vec<_>>();
        WeighDraft(values.try_into().expect("one right side"))
    }

    fn set_weights(&mut self, weights: &Weights) {
        self.0[WEIGHTS] = shown(weights);
    }

    pub fn set(&mut self, line: usize, value: usize) {
        self.0[line] = value.to_string().into_bytes();
    }

    pub fn bytes(&self) -> Vec<u8> {
        write(&self.0)
    }

    /// WEIGH on this job, mostly with the program's buffers.
    pub fn weigh(&self, random: &mut Random) -> Call {
        call(random, Entry::Weigh, self.bytes())
    }

    /// The job, if it is a good one.
    pub fn job(&self) -> WeighJob {
        WeighJob::read(&self.bytes()).expect("a good job")
    }

    /// How its search ends.
    pub fn outcome(&self) -> Weighed {
        weigh(&self.job(), usize::MAX).expect("slots enough")
    }
}

fn shown(weights: &Weights) -> Vec<u8> {
    let weights = weights.map(|weight| weight.to_string());
    weights.join(" ").into_bytes()
}

/// All alike, one or a few light ones, few different ones or any.
pub fn any_weights(random: &mut Random) -> Weights {
    match random.below(8) {
        0 => alike(random),
        1 => [(); LAWS.len()].map(|()| random.pick(&[1, 9])),
        2 | 3 => [(); LAWS.len()].map(|()| random.between(1, 3)),
        4 => [(); LAWS.len()].map(|()| random.between(5, 9)),
        _ => [(); LAWS.len()].map(|()| random.between(1, 9)),
    }
}

/// The same weight for each law, mostly 1.
fn alike(random: &mut Random) -> Weights {
    [random.pick(&[1, 1, 1, 1, 2, 3, 9]); LAWS.len()]
}

/// A job of any equation that FIND is asked about, with any weights.
pub fn draft(random: &mut Random) -> WeighDraft {
    let weights = any_weights(random);
    let mut draft = even_draft(random, &weights);
    set_cost(random, &mut draft);
    draft
}

/// Any cost, mostly enough for a path if there is one; at first it is the largest.
fn set_cost(random: &mut Random, draft: &mut WeighDraft) {
    let most = MOST_COST as usize;
    let cost = match (random.below(6), draft.outcome().proved()) {
        (0, _) => most,
        (1, _) => random.between(0, most),
        (_, Some((_, total))) => total + random.pick(&[0, 0, 0, 1, 1, 3, 9]),
        (_, None) => random.between(0, 20),
    };
    draft.set(COST, cost.min(most));
}

/// Any equation, any weights.
pub fn lightest(random: &mut Random) -> Call {
    draft(random).weigh(random)
}

/// All weights alike, mostly 1 and a cost of 16 times the weight, which is what FIND's steps reach.
pub fn even(random: &mut Random) -> Call {
    alike_draft(random).weigh(random)
}

pub fn alike_draft(random: &mut Random) -> WeighDraft {
    let weights = alike(random);
    let mut draft = even_draft(random, &weights);
    let steps = match random.below(4) {
        0 => random.between(0, 6),
        1 => random.between(0, MOST_COST as usize),
        _ => BOUNDS[0] as usize,
    };
    draft.set(COST, (weights[0] * steps).min(MOST_COST as usize));
    draft
}

/// A law of a short path is heavy, the others are light; mostly the lightest path has more lines.
pub fn detours(random: &mut Random) -> Call {
    let mut draft = detour(random);
    for _ in 0..TRIES {
        if is_longer(&draft) {
            break;
        }
        draft = detour(random);
    }
    set_cost(random, &mut draft);
    draft.weigh(random)
}

/// How often a detour is looked for, and among how many terms.
const TRIES: usize = 5;
const OPENED: usize = 60;

pub fn detour(random: &mut Random) -> WeighDraft {
    let mut draft = even_draft(random, &[1; LAWS.len()]);
    draft.set(NODES, random.between(OPENED / 2, OPENED));
    let outcome = draft.outcome();
    let Some((path, _)) = outcome.proved() else {
        return detour(random);
    };
    let mut weights = [(); LAWS.len()].map(|()| random.pick(&[1, 1, 2, 3]));
    weights[random.pick(path).line.law] = random.pick(&[4, 7, 9, 9]);
    draft.set_weights(&weights);
    draft
}

/// Whether the lightest path, if there is one, has more lines than another one.
fn is_longer(draft: &WeighDraft) -> bool {
    let mut even = draft.clone();
    even.set_weights(&[1; LAWS.len()]);
    let lines = [draft, &even].map(|draft| draft.outcome().proved().map(|(path, _)| path.len()));
    lines[1].is_some() && lines[0] > lines[1]
}

/// An equation that FIND is asked about, under the largest cost.
fn even_draft(random: &mut Random, weights: &Weights) -> WeighDraft {
    let draft = searched::draft(random);
    let mut draft = WeighDraft::new(&draft, weights);
    draft.set(COST, MOST_COST as usize);
    draft
}

/// Cost, size, depth or nodes just below, at or just above what the search takes.
pub fn edges(random: &mut Random) -> Call {
    let mut draft = draft(random);
    let outcome = draft.outcome();
    let (limit, taken) = match outcome.proved() {
        None => (NODES, outcome.expanded),
        Some((path, total)) => {
            let sizes = path.iter().map(|step| step.target.size());
            let depths = path.iter().map(|step| step.target.depth());
            random.pick(&[
                (COST, total),
                (SIZE, sizes.max().unwrap_or(0)),
                (DEPTH, depths.max().unwrap_or(0)),
                (NODES, outcome.expanded),
                (NODES, outcome.expanded),
            ])
        }
    };
    let most = [MOST_COST, BOUNDS[1], BOUNDS[2], BOUNDS[3]][limit - COST];
    draft.set(limit, random.around(taken).min(most as usize));
    draft.weigh(random)
}

/// As many slots as terms are noted, one fewer, one more; few, or about as many as count at all.
pub fn slots(random: &mut Random) -> Call {
    let draft = draft(random);
    with_slots(random, &draft)
}

pub fn with_slots(random: &mut Random, draft: &WeighDraft) -> Call {
    let noted = draft.outcome().noted;
    let slots = match random.below(10) {
        0 => random.below(3),
        1 => random.around(MOST_SLOTS),
        2 => random.below(noted + 1),
        3..6 => noted,
        6..9 => noted - 1,
        _ => noted + 1,
    };
    let room = match random.percent(80) {
        true => 131_072,
        false => 0,
    };
    let call = draft.weigh(random);
    Call {
        slots,
        room,
        ..call
    }
}

/// About as much room as a proved answer or a none needs; where a path is in hand, too, as a none would.
pub fn room(random: &mut Random) -> Call {
    let draft = draft(random);
    let mut weighed = draft.outcome();
    if matches!(weighed.end, End::AtMost { .. }) {
        weighed.end = End::None;
    }
    with_room(random, &draft, &weighed)
}

/// About as much room as the answer to a search that ends so.
pub fn with_room(random: &mut Random, draft: &WeighDraft, weighed: &Weighed) -> Call {
    let text = text(&draft.job(), weighed);
    let room = match random.below(6) {
        0 => 0,
        1 => random.below(text.len()),
        _ => random.around(text.len()),
    };
    let call = draft.weigh(random);
    let slots = weighed.noted.max(call.slots);
    Call {
        slots,
        room,
        ..call
    }
}
