//! Derivations whose lines are malformed or hold what is no term, and good texts damaged at random.

use super::broken::damage_some;
use super::chains::chain;
use super::derived::{Derived, call};
use super::random::Random;
use super::refused::spoil_term;
use super::searched;
use crate::plain;
use crate::{Call, Entry};

/// What is no law, no direction and no place.
#[rustfmt::skip]
const NO_LAWS: [&[u8]; 12] = [
    b"", b"add_idem", b"add_zero", b"add_zero_left", b"ADD_COMM", b"Add_comm", b"add_comm\t", b"add_com",
    b"add_comms", b"mul_comm", b"add-comm", b"\xff",
];
#[rustfmt::skip]
const NO_DIRECTIONS: [&[u8]; 10] = [
    b"", b"backward", b"forwards", b"Forward", b"BACK", b"bac", b"for", b"back\t", b"reverse", b"forward\0",
];
#[rustfmt::skip]
const NO_PLACES: [&[u8]; 14] = [
    b"", b"..", b".l", b"l.", b"L", b"R", b"x", b"lx", b"l,r", b"0", b"lr\t", b"l r", b" l", b"\0",
];

/// What stands for a term and is none, beside what no job's side may be.
#[rustfmt::skip]
const NO_RESULTS: [&[u8]; 10] = [
    b"", b"v0 + v1", b"v0+v1", b"(+ v0 v1)", b"+ v0 v1;", b"to=v0", b"v0 to=v0", b"add_comm", b".", b"- v0",
];

/// Lines that a derivation has not.
#[rustfmt::skip]
const OTHER_LINES: [&[u8]; 12] = [
    b"\n", b"x\n", b"step=\n", b"steps=1\n", b"expanded=0\n", b"uses=add_comm\n", b"answer=proved\n",
    b"proof=(ref x0)\n", b"laws=sets\n", b"left=v0\n", b"right=v0\n", b" step=add_comm forward at=. to=0\n",
];

/// One fault of the lines or of a step line beside its term.
pub fn lines(random: &mut Random) -> Call {
    let draft = Derived::new(&chain(random));
    let text = malformed(random, draft);
    call(random, text)
}

fn malformed(random: &mut Random, mut draft: Derived) -> Vec<u8> {
    match random.below(8) {
        0..3 => {
            spoil_field(random, &mut draft);
            draft.bytes()
        }
        3..5 => bad_parts(random, &draft),
        5 => bad_ends(random, &draft),
        6 => bad_order(random, &draft),
        _ => found_whole(random),
    }
}

/// No law, no direction or no place.
pub fn spoil_field(random: &mut Random, draft: &mut Derived) {
    let step = draft.any_step(random);
    match random.below(3) {
        0 => step.law = random.pick(&NO_LAWS).to_vec(),
        1 => step.direction = random.pick(&NO_DIRECTIONS).to_vec(),
        _ => step.place = random.pick(&NO_PLACES).to_vec(),
    }
}

/// A step line with other spaces, words or a part too few.
fn bad_parts(random: &mut Random, draft: &Derived) -> Vec<u8> {
    let mut lines = draft.lines();
    let at = random.between(2, lines.len() - 1);
    let line = String::from_utf8(lines[at].clone()).expect("a good line");
    let mut parts: Vec<&str> = line.splitn(4, ' ').collect();
    let part = random.below(4);
    let new = match random.below(8) {
        0 => {
            parts.remove(part);
            parts.join(" ")
        }
        1 => {
            parts.insert(part, "");
            parts.join(" ")
        }
        2 => {
            parts.swap(part, (part + 1) % 4);
            parts.join(" ")
        }
        3 => parts.join("\t"),
        4 => line.replace(
            " to=",
            random.pick(&[" ", " to", "  to=", " TO=", " to:", "to="]),
        ),
        5 => line.replace(
            " at=",
            random.pick(&[" ", " at", "  at=", " AT=", " at:", "at="]),
        ),
        6 => line.replace(
            "step=",
            random.pick(&["", "step", "step= ", "Step=", "steps=", " step="]),
        ),
        _ => parts[..part.max(1)].join(" ") + "\n",
    };
    lines[at] = new.into_bytes();
    lines.concat()
}

fn bad_ends(random: &mut Random, draft: &Derived) -> Vec<u8> {
    let text = draft.bytes();
    let (_, head) = text.split_last().expect("a text");
    match random.below(8) {
        0 => Vec::new(),
        1 => head.to_vec(),
        2 => [&text[..], &[random.byte()]].concat(),
        3 => text.repeat(2),
        4 => [b"\n", &text[..]].concat(),
        5 => [head, b"\r\n"].concat(),
        6 => [&text[..], random.pick(&OTHER_LINES)].concat(),
        _ => text
            .split(|&byte| byte == b'\n')
            .collect::<Vec<_>>()
            .join(&b"\r\n"[..]),
    }
}

/// A line at another place, missing, twice, or one that does not belong there.
fn bad_order(random: &mut Random, draft: &Derived) -> Vec<u8> {
    let mut lines = draft.lines();
    let (one, other) = (random.below(lines.len()), random.below(lines.len()));
    match random.below(5) {
        0 => lines.swap(one.min(1), other),
        1 => drop(lines.remove(one.min(1))),
        2 => lines.insert(other, lines[one.min(1)].clone()),
        3 => {
            let side = lines.remove(one.min(1));
            lines.push(side);
        }
        _ => lines.insert(other, random.pick(&OTHER_LINES).to_vec()),
    }
    lines.concat()
}

/// FIND's whole answer, or its job.
fn found_whole(random: &mut Random) -> Vec<u8> {
    let job = searched::draft(random).bytes();
    match plain::whole(Entry::Find, &job) {
        Ok((answer, _)) if random.percent(70) => answer,
        _ => job,
    }
}

/// One side or result, or two, no term.
pub fn terms(random: &mut Random) -> Call {
    let mut draft = Derived::new(&chain(random));
    for _ in 0..random.pick(&[1, 1, 1, 2]) {
        let value = draft.any_term(random);
        match random.below(4) {
            0 => *value = random.pick(&NO_RESULTS).to_vec(),
            _ => spoil_term(random, value),
        }
    }
    if random.percent(10) {
        draft.steps.clear();
    }
    draft.call(random)
}

/// A good text damaged.
pub fn damaged(random: &mut Random) -> Call {
    let mut text = Derived::new(&chain(random)).bytes();
    damage_some(random, &mut text);
    call(random, text)
}
