//! Derivations about the bounds of refusals 3, 4 and 11 and of the text's length, and several reasons at once.

use super::bent::{bend, tear};
use super::chains::{chain, stated};
use super::derived::{Derived, StepDraft, call};
use super::random::Random;
use super::refused::{MOST_HELD, spoil_term};
use super::spoilt::of_length;
use super::terms::{holding, letters, mixed, shown, term, term_up_to};
use super::unread::spoil_field;
use crate::Call;
use crate::plain::check::{Derivation, GOOD, MOST_CHECK_BYTES};
use crate::plain::job::{MOST_LETTERS, MOST_NODES};
use crate::plain::line::lines;

/// Terms of 29 nodes and more in place of a side or a result, and lines that grow past 31 nodes.
pub fn nodes(random: &mut Random) -> Call {
    let pool = letters(random, 3);
    if random.percent(40) {
        return grown(random, &pool);
    }
    let mut draft = Derived::new(&chain(random));
    let size = random.pick(&[29, 31, 31, 33, 33, 35, 63]);
    *draft.any_term(random) = shown(&term(random, size, &pool));
    draft.call(random)
}

/// One line from 29 or 31 nodes to 31, 33 or more.
fn grown(random: &mut Random, pool: &[u16]) -> Call {
    let size = random.pick(&[MOST_NODES - 2, MOST_NODES]);
    let left = term(random, size, pool);
    let mut found = lines(&left);
    found.retain(|(_, result)| result.size() > left.size());
    let (line, right) = random.pick(&found);
    let steps = vec![stated(&left, &line, right.clone())];
    let derivation = Derivation { left, right, steps };
    Derived::new(&derivation).call(random)
}

/// Five to eight v letters in all terms together, few in each, and c letters.
pub fn names(random: &mut Random) -> Call {
    let count = random.between(MOST_LETTERS - 1, MOST_LETTERS + 2);
    let pool = mixed(random, count, 2 * MOST_HELD);
    let mut steps = Vec::new();
    let mut at = 0;
    while at < pool.len() {
        let width = random.between(1, 3).min(pool.len() - at);
        steps.extend(there_and_back(random, &pool[at..at + width]));
        at += width;
    }
    let zero = || b"0".to_vec();
    let mut draft = Derived {
        left: zero(),
        right: zero(),
        steps,
    };
    match random.below(4) {
        0 => draft.steps.clear(),
        1 => *draft.any_term(random) = shown(&holding(random, &pool[..2])),
        _ => {}
    }
    draft.call(random)
}

/// From 0 to 0 by way of a term that holds these letters.
fn there_and_back(random: &mut Random, letters: &[u16]) -> [StepDraft; 2] {
    let brought = shown(&holding(random, letters));
    pair(random, b"", &brought, b"", b".")
}

/// A term brought in beside a 0 and taken away again; before and behind stands the rest of the whole term.
fn pair(
    random: &mut Random,
    before: &[u8],
    brought: &[u8],
    behind: &[u8],
    place: &[u8],
) -> [StepDraft; 2] {
    let (law, product) = match random.below(2) {
        0 => ("zero_mul", [b"* 0 ", brought].concat()),
        _ => ("mul_zero", [b"* ", brought, b" 0"].concat()),
    };
    let step = |direction: &str, middle: &[u8]| StepDraft {
        law: law.into(),
        direction: direction.into(),
        place: place.to_vec(),
        result: [before, middle, behind].concat(),
    };
    [step("forward", &product), step("back", b"0")]
}

/// No step line.
pub fn no_step(random: &mut Random) -> Call {
    let pool = letters(random, 3);
    let [left, right] = [(); 2].map(|()| term_up_to(random, 7, &pool));
    let mut draft = Derived {
        left: shown(&left),
        right: shown(&right),
        steps: Vec::new(),
    };
    if random.percent(40) {
        draft.right = draft.left.clone();
    }
    draft.call(random)
}

/// Two or three reasons at once, of which the first that is looked at counts.
pub fn faults(random: &mut Random) -> Call {
    let mut derivation = chain(random);
    for _ in 0..random.below(3) {
        if !derivation.steps.is_empty() && random.percent(50) {
            tear(random, &mut derivation);
        } else if !derivation.steps.is_empty() {
            let at = random.below(derivation.steps.len());
            bend(random, &mut derivation, at);
        }
    }
    let mut draft = Derived::new(&derivation);
    for _ in 0..random.between(1, 3) {
        add_reason(random, &mut draft);
    }
    let room = random.pick(&[0, GOOD.len() - 1, GOOD.len()]);
    Call {
        room,
        ..draft.call(random)
    }
}

/// Gives one of refusals 1 to 4 or 11 a reason.
fn add_reason(random: &mut Random, draft: &mut Derived) {
    match random.below(6) {
        0 if !draft.steps.is_empty() => spoil_field(random, draft),
        1 => {
            let value = draft.any_term(random);
            spoil_term(random, value);
        }
        2 => {
            let pool = letters(random, 3);
            *draft.any_term(random) = shown(&term(random, MOST_NODES + 2, &pool));
        }
        3 => {
            let pool = mixed(random, MOST_LETTERS + 1, MOST_HELD);
            *draft.any_term(random) = shown(&holding(random, &pool));
        }
        4 => draft.steps.clear(),
        _ => {}
    }
}

/// Chains of many lines with about 8,192 bytes, and a side of as many.
pub fn bytes(random: &mut Random) -> Call {
    let length = random.around(MOST_CHECK_BYTES) + random.pick(&[0, 0, 0, 1, 60_000]);
    if random.percent(20) {
        let noughts = length - "left=\nright=0\n".len();
        let text = format!("left={}\nright=0\n", "0".repeat(noughts));
        return call(random, text.into_bytes());
    }
    let mut draft = long_chain(random, length);
    if random.percent(20) {
        let step = draft.any_step(random);
        step.law = random
            .pick(&[&b"add_comm"[..], b"zero_mul", b"mul_one_left"])
            .to_vec();
    }
    draft.call(random)
}

/// A chain with so many bytes: terms of up to 60 bytes are brought in and taken away again.
fn long_chain(random: &mut Random, length: usize) -> Derived {
    let pool = letters(random, 2);
    let rest = shown(&term_up_to(random, 7, &pool));
    let names = [(0, 9), (10, 99), (100, 999)];
    let names = names.map(|(least, most)| random.between(least, most));
    let (before, behind) = (b"+ ", [b" ", &rest[..]].concat());
    let whole = [before, &b"0"[..], &behind].concat();
    let mut draft = Derived {
        left: whole.clone(),
        right: whole,
        steps: Vec::new(),
    };
    let bare = pair(random, before, b"", &behind, b"l");
    let bare: usize = bare.iter().map(|step| step.line().len()).sum();
    let missing = length - draft.bytes().len();
    let most = 60;
    let count = random.between(missing.div_ceil(bare + most), missing / (bare + 1));
    let mut over = missing - count * bare;
    for left in (0..count).rev() {
        let least = over.saturating_sub(most * left).max(1);
        let brought = random.between(least, most.min(over - left));
        let term = of_length(random, brought, true, &names);
        draft
            .steps
            .extend(pair(random, before, &term, &behind, b"l"));
        over -= brought;
    }
    draft
}
