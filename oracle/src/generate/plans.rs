//! Jobs with several right sides that pass every refusal before the search.

use super::draft::Draft;
use super::random::Random;
use super::searched::{LARGEST, node_limit, rewritten, set_edge};
use super::terms::{letters, term, term_up_to};
use crate::plain::{
    self,
    job::{MOST_NODES, MOST_RIGHTS},
    law::{LAWS, fits, put},
    term::Term,
};
use crate::{Call, Entry};

/// Several right sides of one left.
pub fn plans(random: &mut Random) -> Call {
    draft(random).find(random)
}

/// The job of several right sides, none of which comes before left.
pub fn draft(random: &mut Random) -> Draft {
    let pool = letters(random, 3);
    let most = random.pick(&[1, 3, 3, 5, 5, 7, 7, 15, 31]);
    let left = term_up_to(random, most, &pool);
    let (size, depth) = LARGEST;
    let limit = (
        (left.size() + random.pick(&[0, 2, 2, 2, 4])).clamp(5, size),
        (left.depth() + random.pick(&[0, 1, 1, 2])).clamp(2, depth),
    );
    let wanted = random.pick(&[2, 2, 3, 4, 6, 8, 11, MOST_RIGHTS]);
    let rights = right_sides(random, &left, wanted, limit);
    if rights.len() < 2 {
        return draft(random);
    }
    let steps = random.pick(&[1, 2, 3, 3, 4, 4, 5]);
    let budget = random.pick(&[20_000, 20_000, 20_000, 60_000, 150_000]);
    let nodes = node_limit(random, budget / rights.len().div_ceil(4), limit.0);
    Draft::new(&left, &rights, [steps, limit.0, limit.1, nodes])
}

/// Up to so many right sides: those that do not come behind left are passed over.
fn right_sides(
    random: &mut Random,
    left: &Term,
    wanted: usize,
    limit: (usize, usize),
) -> Vec<Term> {
    let mut rights: Vec<Term> = Vec::new();
    for _ in 0..6 * wanted {
        let right = right_side(random, left, &rights, limit);
        if rights.len() < wanted && right > *left && right.size() <= MOST_NODES {
            rights.push(right);
        }
    }
    random.shuffle(&mut rights);
    rights
}

/// A term some lines from left or behind another right side, one that a law matches, one that is there
/// already, or any.
fn right_side(random: &mut Random, left: &Term, rights: &[Term], limit: (usize, usize)) -> Term {
    let lines = random.pick(&[1, 2, 2, 3, 3, 4, 4, 5]);
    match random.below(20) {
        0 | 1 => matched(random, left),
        2 | 3 => {
            let pool = letters(random, 3);
            term_up_to(random, 7, &pool)
        }
        4 | 5 if !rights.is_empty() => random.pick(rights),
        6..10 if !rights.is_empty() => {
            let from = random.pick(rights);
            walked(random, &from, 1, limit)
        }
        _ => walked(random, left, lines, limit),
    }
}

/// The term after so many lines.
fn walked(random: &mut Random, from: &Term, lines: usize, limit: (usize, usize)) -> Term {
    (0..lines).fold(from.clone(), |term, _| rewritten(random, &term, limit))
}

/// What a law makes of left, letters that it brings in standing for any term; left, if it does not match.
fn matched(random: &mut Random, left: &Term) -> Term {
    let law = &LAWS[random.below(LAWS.len())];
    let pool = letters(random, 2);
    let brought = term_up_to(random, 3, &pool);
    let mut binding = [None; 3];
    if !fits(law.left, left.run(), &mut binding) {
        return left.clone();
    }
    let binding = binding.map(|met| met.or(Some(brought.run())));
    Term::of(put(law.right, &binding).expect("bound"))
}

/// One limit about what the search for one right side takes.
pub fn edges(random: &mut Random) -> Call {
    let mut draft = draft(random);
    let right = random.below(draft.sides() - 1);
    set_edge(random, &mut draft, right);
    draft.find(random)
}

/// About as many slots as one right side needs: those noted before it are answered, others lack them.
pub fn slots(random: &mut Random) -> Call {
    let call = draft(random).find(random);
    let blocks = plain::blocks(Entry::Find, &call.job, usize::MAX).expect("a good job");
    let noted: Vec<usize> = blocks.iter().flatten().map(|block| block.noted).collect();
    let slots = match random.below(10) {
        0 => random.below(2),
        1 => random.below(1 + noted.iter().max().expect("a right side")),
        _ => {
            let needed = random.pick(&noted);
            random.around(needed)
        }
    };
    let room = 131_072;
    Call {
        slots,
        room,
        ..call
    }
}

/// About as much room as all blocks need, or the first ones.
pub fn room(random: &mut Random) -> Call {
    let mut call = draft(random).find(random);
    if random.percent(30) {
        call.slots = random.below(40);
    }
    let text = plain::answer(Entry::Find, &call.job, call.slots, usize::MAX).expect("a good job");
    let starts = text.windows(8).enumerate();
    let starts = starts.filter(|(_, bytes)| bytes == b"\nanswer=");
    let ends: Vec<usize> = starts.map(|(end, _)| end + 1).collect();
    call.room = match random.below(8) {
        0 => random.below(text.len()),
        1 | 2 => {
            let end = random.pick(&ends);
            random.around(end)
        }
        _ => random.around(text.len()),
    };
    call
}

/// Two or three right sides under the largest limits: some ten seconds each.
pub fn heavy(random: &mut Random) -> Call {
    let pool = letters(random, 4);
    let size = 2 * random.between(4, 15) + 1;
    let left = term(random, size, &pool);
    let wanted = random.between(2, 3);
    let mut rights = Vec::new();
    for _ in 0..8 {
        let lines = random.between(1, 8);
        let right = walked(random, &left, lines, LARGEST);
        if right > left && rights.len() < wanted {
            rights.push(right);
        }
    }
    if rights.len() < wanted {
        return heavy(random);
    }
    let nodes = 4_096 - random.below(2);
    let limits = [random.between(4, 16), 31, random.between(8, 15), nodes];
    let slots = random.pick(&[400, 20_000, 65_535, 65_536, 200_000]);
    Call {
        slots,
        room: 131_072,
        ..Draft::new(&left, &rights, limits).find(random)
    }
}
