//! Jobs with one right side that pass 1 to 6, for the search: provable and random equations, edges, slots and room.

use std::collections::BTreeSet;

use super::draft::Draft;
use super::random::Random;
use super::terms::{letters, term, term_up_to};
use crate::plain::{
    self,
    job::{BOUNDS, Job},
    law::{LAWS, put},
    line::{Line, lines},
    search::search,
    term::Term,
};
use crate::{Call, Entry};

/// An equation, and the limits under which it is hoped to be proved.
struct Equation {
    left: Term,
    right: Term,
    lines: usize,
    size: usize,
    depth: usize,
}

/// Both sides of one law with terms put in.
pub fn laws(random: &mut Random) -> Call {
    let equation = law_instance(random);
    limited(random, equation).find(random)
}

/// Ends of a chain of 1 to 4 lines.
pub fn paths(random: &mut Random) -> Call {
    path_draft(random).find(random)
}

/// Two random terms.
pub fn pairs(random: &mut Random) -> Call {
    pair_draft(random).find(random)
}

/// Any job that passes 1 to 6 and costs little.
pub fn draft(random: &mut Random) -> Draft {
    match random.below(4) {
        0 => pair_draft(random),
        1 => {
            let equation = law_instance(random);
            limited(random, equation)
        }
        _ => path_draft(random),
    }
}

fn path_draft(random: &mut Random) -> Draft {
    let equation = chain(random);
    limited(random, equation)
}

fn pair_draft(random: &mut Random) -> Draft {
    let count = random.below(4);
    let pool = letters(random, count);
    let most = random.pick(&[3, 5, 9, 15, 31]);
    let left = term_up_to(random, most, &pool);
    let right = term_up_to(random, most, &pool);
    if left == right {
        return pair_draft(random);
    }
    let (size, depth) = (left.size(), left.depth());
    let equation = Equation {
        left,
        right,
        lines: 3,
        size,
        depth,
    };
    limited(random, equation)
}

fn law_instance(random: &mut Random) -> Equation {
    let pool = letters(random, 3);
    let most = random.pick(&[1, 3, 5]);
    let parts = [(); 3].map(|()| term_up_to(random, most, &pool));
    let binding = [0, 1, 2].map(|letter: usize| Some(parts[letter].run()));
    let law = &LAWS[random.below(LAWS.len())];
    let [left, right] = [law.left, law.right].map(|side| put(side, &binding).expect("bound"));
    let (left, right) = (Term::of(left), Term::of(right));
    if left == right {
        return law_instance(random);
    }
    Equation {
        lines: 1,
        size: left.size().max(right.size()),
        depth: left.depth().max(right.depth()),
        left,
        right,
    }
}

fn chain(random: &mut Random) -> Equation {
    let pool = letters(random, 3);
    let count = random.pick(&[1, 2, 3, 4, 4]);
    let most = random.pick(&[3, 5, 7, 15]);
    let left = term_up_to(random, most, &pool);
    let mut right = left.clone();
    // left itself is never tested, unless the search starts at the other end
    let (mut size, mut depth) = random.pick(&[(0, 0), (left.size(), left.depth())]);
    for _ in 0..count {
        right = rewritten(random, &right, LARGEST);
        size = size.max(right.size());
        depth = depth.max(right.depth());
    }
    if left == right {
        return chain(random);
    }
    Equation {
        left,
        right,
        lines: count,
        // more than is needed widens the search
        size: size + random.pick(&[0, 0, 2]),
        depth,
    }
}

/// The largest size and depth.
pub const LARGEST: (usize, usize) = (BOUNDS[1] as usize, BOUNDS[2] as usize);

/// The term after one line of a random law, if there is one that keeps this size and depth.
pub fn rewritten(random: &mut Random, term: &Term, (size, depth): (usize, usize)) -> Term {
    let found: Vec<(Line, Term)> = lines(term)
        .into_iter()
        .filter(|(_, result)| result.size() <= size && result.depth() <= depth)
        .collect();
    if found.is_empty() {
        return term.clone();
    }
    let laws: BTreeSet<usize> = found.iter().map(|(line, _)| line.law).collect();
    let law = random.pick(&Vec::from_iter(laws));
    let of_law: Vec<&Term> = found
        .iter()
        .filter(|(line, _)| line.law == law)
        .map(|(_, result)| result)
        .collect();
    random.pick(&of_law).clone()
}

/// Limits about what the equation needs, the nodes by what opening a term of that size costs.
fn limited(random: &mut Random, equation: Equation) -> Draft {
    let steps = equation.lines + random.pick(&[0, 0, 1, 2]);
    let size = equation.size.min(31);
    let depth = equation.depth + random.pick(&[0, 1, 2]);
    let budget = match random.below(100) {
        0..70 => 20_000,
        70..95 => 100_000,
        _ => 1_000_000,
    };
    let nodes = node_limit(random, budget, size);
    let limits = [steps.min(16), size, depth.min(15), nodes];
    let (left, right) = (&equation.left, &equation.right);
    if random.percent(50) {
        Draft::new(left, [right], limits)
    } else {
        Draft::new(right, [left], limits)
    }
}

/// A node limit, the smaller, the more it costs to open terms of up to this size.
pub fn node_limit(random: &mut Random, budget: usize, size: usize) -> usize {
    let most = (budget / (size * size)).clamp(2, BOUNDS[3] as usize);
    random.between(1, most)
}

/// One limit just below, at or just above what the search takes.
pub fn edges(random: &mut Random) -> Call {
    let mut draft = draft(random);
    set_edge(random, &mut draft, 0);
    draft.find(random)
}

/// Sets one limit just below, at or just above what the search for this right side takes.
pub fn set_edge(random: &mut Random, draft: &mut Draft, right: usize) {
    let job = Job::read(Entry::Find, &draft.bytes()).expect("a good job");
    let (left, right) = job.equations[right].oriented();
    let outcome = search(left, right, &job.limits, usize::MAX).expect("slots enough");
    let limit = match &outcome.path {
        None => 3,
        Some(_) => random.below(4),
    };
    let path = outcome.path.unwrap_or_default();
    let sizes = path.iter().map(|step| step.target.size());
    let depths = path.iter().map(|step| step.target.depth());
    let taken = match limit {
        0 => path.len(),
        1 => sizes.max().unwrap_or(0),
        2 => depths.max().unwrap_or(0),
        _ => outcome.expanded,
    };
    let value = random.around(taken).min(BOUNDS[limit] as usize);
    draft.set_limit(limit, value);
}

/// About as many slots as the search needs, or as count at all.
pub fn slots(random: &mut Random) -> Call {
    let draft = draft(random);
    let (_, noted) = plain::whole(Entry::Find, &draft.bytes()).expect("a good job");
    let slots = match random.below(8) {
        0 => random.below(2),
        1 => random.around(plain::MOST_SLOTS),
        _ => random.around(noted),
    };
    Call {
        slots,
        room: 131_072,
        ..draft.find(random)
    }
}

/// About as much room as the answer needs.
pub fn room(random: &mut Random) -> Call {
    let draft = draft(random);
    let call = draft.any(random);
    let (text, noted) = plain::whole(call.entry, &call.job).expect("a good job");
    let room = match random.below(6) {
        0 => 0,
        1 => random.below(text.len()),
        _ => random.around(text.len()),
    };
    let slots = noted.max(call.slots);
    Call {
        slots,
        room,
        ..call
    }
}

/// Large sides and the largest limits: seconds each.
pub fn heavy(random: &mut Random) -> Call {
    let pool = letters(random, 4);
    let size = 2 * random.between(7, 15) + 1;
    let left = term(random, size, &pool);
    let mut right = left.clone();
    for _ in 0..random.between(3, 12) {
        right = rewritten(random, &right, LARGEST);
    }
    if left == right {
        return heavy(random);
    }
    let nodes = 4_096 - random.below(2);
    let limits = [random.between(4, 16), 31, random.between(8, 15), nodes];
    let slots = random.pick(&[400, 65_535, 65_536, 200_000]);
    Call {
        slots,
        room: 131_072,
        ..Draft::new(&left, [&right], limits).find(random)
    }
}
