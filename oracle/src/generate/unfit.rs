//! Puts about the bounds of refusals 1 to 6, several reasons at once, and buffers of another length.

use super::plays::Player;
use super::puts::{PutDraft, any_known, job, listed_number, new_equation, unlisted_number};
use super::random::Random;
use super::spoilt::of_length;
use super::{broken, puts, refused, withdrawals};
use crate::plain::catalogue::{Catalogue, Key};
use crate::plain::job::MOST_BYTES;
use crate::{Ask, CATALOGUE, Call, Sent};

/// Numbers at their bounds, and what is no number; some would wrap to one.
#[rustfmt::skip]
pub const NUMBERS: [&[u8]; 30] = [
    b"0", b"1", b"999", b"1000", b"01", b"001", b"0999", b"00", b"1001", b"9999", b"10000", b"65537", b"4294967297",
    b"18446744073709551617", b"1000000000000000000000000000000001", b"", b" 1", b"1 ", b"+1", b"-1", b"1.0", b"1e2",
    b"0x1", b"1\r", b"1\t", b"1\0", b"v1", b"one", b"1,2", b"\xff",
];

/// What is no key.
#[rustfmt::skip]
const NO_KEYS: [&[u8]; 20] = [
    b"", b"Raw", b"RAW", b"raws", b"ra", b"raw ", b" raw", b"raw\r", b"raw\0", b"raw,words", b"Words", b"WORDS",
    b"word", b"wordss", b"words ", b" words", b"words\t", b"0", b"1", b"sets",
];

/// Lines that a put has not, or not there.
#[rustfmt::skip]
const OTHER_LINES: [&[u8]; 10] = [
    b"\n", b"x\n", b"number=5\n", b"key=raw\n", b"key=words\n", b"left=v0\n", b"right=v1\n", b"nodes=1\n",
    b"laws=sets\n", b" \n",
];

/// A good put, in one of three under a number that is listed.
fn draft(player: &mut Player, catalogue: &Catalogue) -> PutDraft {
    let known = match player.random.below(2) {
        0 => new_equation(player),
        _ => any_known(player),
    };
    let random = &mut player.random;
    let number = any_number(random, catalogue);
    PutDraft::new(number, known.key, job(random, &known.sides))
}

fn any_number(random: &mut Random, catalogue: &Catalogue) -> u32 {
    let listed = listed_number(random, catalogue).filter(|_| random.below(3) == 0);
    listed.unwrap_or_else(|| unlisted_number(random, catalogue))
}

/// A put of a job that was made for the other entries.
fn of_job(player: &mut Player, catalogue: &Catalogue, make: fn(&mut Random) -> Call) -> Sent {
    let random = &mut player.random;
    let job = make(random).job;
    let number = any_number(random, catalogue);
    PutDraft::new(number, random.pick(&Key::ALL), job).sent()
}

pub fn numbers(player: &mut Player, catalogue: &Catalogue) -> Sent {
    let mut draft = draft(player, catalogue);
    let random = &mut player.random;
    draft.number = match random.below(2) {
        0 => random.pick(&NUMBERS[..4]).to_vec(),
        _ => random.pick(&NUMBERS).to_vec(),
    };
    draft.sent()
}

pub fn keys(player: &mut Player, catalogue: &Catalogue) -> Sent {
    let mut draft = draft(player, catalogue);
    draft.key = player.random.pick(&NO_KEYS).to_vec();
    draft.sent()
}

/// A line missing, twice, at another place or of another key, or another end of the text.
pub fn lines(player: &mut Player, catalogue: &Catalogue) -> Sent {
    let draft = draft(player, catalogue);
    let random = &mut player.random;
    let text = draft.bytes();
    let mut lines: Vec<Vec<u8>> = text
        .split_inclusive(|&byte| byte == b'\n')
        .map(<[u8]>::to_vec)
        .collect();
    let (one, other) = (random.below(lines.len()), random.below(lines.len()));
    match random.below(12) {
        0 => drop(lines.remove(one)),
        1 => drop(lines.drain(..random.between(1, 2))),
        2 => lines.truncate(random.between(0, 7)),
        3 => lines.swap(0, 1),
        4 => lines.swap(one, other),
        5 => lines.insert(other, lines[one].clone()),
        6 => lines.insert(other, random.pick(&OTHER_LINES).to_vec()),
        7 => lines.push(random.pick(&OTHER_LINES).to_vec()),
        8 => lines[one.min(1)][0] ^= 0x20,
        9 => lines[one.min(1)].insert(0, b' '),
        10 => drop(lines[7].pop()),
        _ => lines[one].insert(0, random.byte()),
    }
    Sent::new(Ask::Put, lines.concat())
}

pub fn sides(player: &mut Player, catalogue: &Catalogue) -> Sent {
    of_job(player, catalogue, refused::sides)
}

pub fn nodes(player: &mut Player, catalogue: &Catalogue) -> Sent {
    of_job(player, catalogue, refused::nodes)
}

pub fn letters(player: &mut Player, catalogue: &Catalogue) -> Sent {
    of_job(player, catalogue, refused::many_letters)
}

pub fn limits(player: &mut Player, catalogue: &Catalogue) -> Sent {
    of_job(player, catalogue, refused::limits)
}

pub fn equal(player: &mut Player, catalogue: &Catalogue) -> Sent {
    of_job(player, catalogue, refused::equal)
}

/// Reasons in the job, and perhaps in number and key, of which the first that is looked at counts.
pub fn faults(player: &mut Player, catalogue: &Catalogue) -> Sent {
    let random = &mut player.random;
    let make = random.pick(&[refused::several, refused::several, broken::lines]);
    let mut draft = draft(player, catalogue);
    let random = &mut player.random;
    draft.job = make(random).job;
    if random.percent(15) {
        draft.number = random.pick(&NUMBERS).to_vec();
    }
    if random.percent(15) {
        draft.key = random.pick(&NO_KEYS).to_vec();
    }
    draft.sent()
}

/// Well formed lines with about 1,024 bytes in all, or many more.
pub fn bytes(player: &mut Player, catalogue: &Catalogue) -> Sent {
    let mut draft = draft(player, catalogue);
    let random = &mut player.random;
    let length = match random.below(12) {
        0 => MOST_BYTES + 65_536,
        1 => random.between(MOST_BYTES, 2 * MOST_BYTES),
        _ => random.between(MOST_BYTES - 1, MOST_BYTES + 2),
    };
    let (key, rest) = draft.job.split_at("left=".len());
    let old = rest.iter().position(|&byte| byte == b'\n');
    let rest = &rest[old.expect("a line ends")..];
    let missing = length - (draft.bytes().len() - old.expect("a line ends"));
    let left = match random.below(3) {
        0 => b"0".repeat(missing),
        _ => of_length(random, missing, true, &[7, 77, 777]),
    };
    draft.job = [key, &left, rest].concat();
    draft.sent()
}

pub fn damaged(player: &mut Player, catalogue: &Catalogue) -> Sent {
    let mut text = draft(player, catalogue).bytes();
    broken::damage_some(&mut player.random, &mut text);
    Sent::new(Ask::Put, text)
}

/// Any call, good or not, on a buffer of another length.
pub fn buffers(player: &mut Player, catalogue: &Catalogue) -> Sent {
    let make = player.random.pick(&[
        puts::again,
        puts::listed,
        faults,
        withdrawals::held,
        withdrawals::unlisted,
        withdrawals::malformed,
    ]);
    let sent = make(player, catalogue);
    let random = &mut player.random;
    let numbers = match random.below(8) {
        0 => 0,
        1 => random.between(1, 5_408),
        2 => random.between(CATALOGUE + 2, 2 * CATALOGUE),
        3 => random.below(CATALOGUE),
        4 | 5 => CATALOGUE - 1,
        _ => CATALOGUE + 1,
    };
    Sent { numbers, ..sent }
}
