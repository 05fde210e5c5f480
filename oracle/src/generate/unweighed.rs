//! Jobs of WEIGH at and about the bounds of its refusals: cost and weights out of range, malformed lines, several reasons
//! at once.

use super::broken::{bad_ends, bad_key, bad_order, damage_some};
use super::draft::Draft;
use super::random::Random;
use super::refused::{TOO_LARGE, add_reason, bound, spoil_side};
use super::searched;
use super::terms::{holding, letters, mixed, shown, term};
use super::weigh::{COST, NODES, SIZE, WEIGHTS, WeighDraft, any_weights, draft};
use crate::Call;
use crate::plain::job::{MOST_BYTES, MOST_LETTERS};
use crate::plain::law::LAWS;

/// The weights one by one.
fn pieces(draft: &WeighDraft) -> Vec<Vec<u8>> {
    let pieces = draft.0[WEIGHTS].split(|&byte| byte == b' ');
    pieces.map(<[u8]>::to_vec).collect()
}

/// Cost and weights at the ends of their ranges and beyond, limits about their bounds.
pub fn ranges(random: &mut Random) -> Call {
    let mut draft = draft(random);
    for _ in 0..random.between(1, 2) {
        match random.below(6) {
            0 => draft.set(COST, random.pick(&[0, 1, 98, 99, 100, 101])),
            1 => draft.0[COST] = random.pick(&TOO_LARGE).into(),
            2 | 3 => {
                let weight = random.pick(&["0", "1", "9", "10", "11", "90", "99"]);
                set_weight(random, &mut draft, weight);
            }
            4 => {
                let weight = random.pick(&TOO_LARGE);
                set_weight(random, &mut draft, weight);
            }
            _ => set_bound(random, &mut draft),
        }
    }
    draft.set(NODES, random.between(0, 40));
    if random.percent(30) {
        set_bound(random, &mut draft);
    }
    draft.weigh(random)
}

fn set_weight(random: &mut Random, draft: &mut WeighDraft, weight: &str) {
    let mut all = pieces(draft);
    let at = random.below(all.len());
    all[at] = weight.into();
    draft.0[WEIGHTS] = all.join(&b' ');
}

/// A limit at 0, at 1, about its bound or much too large; nodes under a small cost.
fn set_bound(random: &mut Random, draft: &mut WeighDraft) {
    let limit = random.below(3);
    match random.below(5) {
        0 => draft.0[SIZE + limit] = random.pick(&TOO_LARGE).into(),
        1 => draft.set(SIZE + limit, random.below(2)),
        _ => draft.set(SIZE + limit, random.around([31, 15, 4_096][limit])),
    }
    if limit == 2 {
        draft.set(COST, random.below(3));
    }
}

/// A line of weights that is none, or lines that are malformed, missing, exchanged or of other keys.
pub fn lines(random: &mut Random) -> Call {
    let mut draft = draft(random);
    let text = match random.below(8) {
        0..3 => {
            draft.0[WEIGHTS] = no_weights(random, &draft);
            draft.bytes()
        }
        3 => {
            let line = random.pick(&[COST, SIZE, NODES]);
            draft.0[line] = random.pick(&NO_NUMBERS).to_vec();
            draft.bytes()
        }
        4 => other_lines(random, &draft),
        5 => bad_key(random, lines_of(&draft)),
        6 => bad_ends(random, &draft.bytes()),
        _ => bad_order(random, lines_of(&draft)),
    };
    Call {
        job: text,
        ..draft.weigh(random)
    }
}

const NO_NUMBERS: [&[u8]; 12] = [
    b"", b"00", b"03", b" 3", b"3 ", b"+3", b"-1", b"3.0", b"0x3", b"3\r", b"3\t", b"3 3",
];

fn lines_of(draft: &WeighDraft) -> Vec<Vec<u8>> {
    let text = draft.bytes();
    let lines = text.split_inclusive(|&byte| byte == b'\n');
    lines.map(<[u8]>::to_vec).collect()
}

/// Numbers too few or too many, empty pieces, other marks between them, malformed digits.
fn no_weights(random: &mut Random, draft: &WeighDraft) -> Vec<u8> {
    let mut all = pieces(draft);
    let at = random.below(all.len());
    match random.below(8) {
        0 => {
            all.truncate(random.below(LAWS.len()));
        }
        1 => {
            let more = all[at].clone();
            let count = random.pick(&[1, 1, 2, 10, 300]);
            all.extend(vec![more; count]);
        }
        2 => all.insert(random.below(LAWS.len() + 1), Vec::new()),
        3 => {
            let mark = random.pick(&[&b","[..], b";", b"  ", b"\t", b", ", b"\0", b"\n"]);
            return all.join(mark);
        }
        4 => all[at] = random.pick(&[b"01", b"00", b"09"]).to_vec(),
        _ => all[at] = random.pick(&NO_NUMBERS).to_vec(),
    }
    all.join(&b' ')
}

/// Steps in place of the cost or beside it, or one line missing, written twice, or with a key that is none.
fn other_lines(random: &mut Random, draft: &WeighDraft) -> Vec<u8> {
    let mut lines = lines_of(draft);
    let steps = [b"steps=", &draft.0[COST][..], b"\n"].concat();
    match random.below(8) {
        0 | 1 => lines[COST] = steps,
        2 => lines.insert(COST, steps),
        3 => {
            lines.pop();
        }
        4 => lines.insert(2, lines[1].clone()),
        5 => {
            let moved = lines.pop().expect("a line");
            lines.insert(random.below(lines.len()), moved);
        }
        6 => lines[WEIGHTS] = [b"weight=", &draft.0[WEIGHTS][..], b"\n"].concat(),
        _ => {
            lines.remove(random.below(lines.len()));
        }
    }
    lines.concat()
}

/// Two or three reasons at once, of which the first that is looked at counts.
pub fn wrong(random: &mut Random) -> Call {
    let mut equation = searched::draft(random);
    equation.set_limit(3, random.between(0, 20));
    let mut reasons = random.between(1, 3);
    let is_equal = random.percent(20);
    if is_equal {
        equation.0[1] = equation.0[0].clone();
        reasons = random.between(0, 1);
    }
    for _ in 0..reasons {
        add_reason(random, &mut equation);
    }
    let mut draft = WeighDraft::new(&equation, &any_weights(random));
    match random.below(4) {
        0 => draft.0[COST] = random.pick(&TOO_LARGE).into(),
        1 | 2 => {
            let weight = random.pick(&["0", "10", "65537"]);
            set_weight(random, &mut draft, weight);
        }
        _ if random.percent(30) => draft.0[WEIGHTS] = no_weights(random, &draft),
        _ => {}
    }
    draft.weigh(random)
}

/// Jobs about refusals 2, 3, 4 and 6.
pub fn sides(random: &mut Random) -> Call {
    let mut equation = searched::draft(random);
    equation.set_limit(3, random.between(0, 20));
    match random.below(4) {
        0 => spoil_side(random, &mut equation, 0),
        1 => {
            let pool = letters(random, 3);
            let (side, size) = (random.below(2), random.pick(&[29, 31, 33, 35]));
            equation.0[side] = shown(&term(random, size, &pool));
        }
        2 => {
            let count = random.between(MOST_LETTERS, MOST_LETTERS + 2);
            let pool = mixed(random, count, 16);
            equation = Draft::new(
                &holding(random, &pool[..3]),
                [&holding(random, &pool[3..])],
                [2, 9, 5, 10],
            );
        }
        _ => {
            equation.0[1] = equation.0[0].clone();
            if random.percent(30) {
                bound(random, &mut equation, 1);
            }
        }
    }
    WeighDraft::new(&equation, &any_weights(random)).weigh(random)
}

/// Texts of about 1,024 bytes, filled up in a side, in a number or behind the weights.
pub fn bytes(random: &mut Random) -> Call {
    let mut draft = draft(random);
    draft.set(NODES, random.between(0, 20));
    let missing = MOST_BYTES - draft.bytes().len();
    let added = match random.below(8) {
        0 => 65_836,
        1 => missing + random.below(200),
        _ => random.around(missing),
    };
    let line = random.pick(&[0, 1, COST, NODES, WEIGHTS, WEIGHTS]);
    let filling = random.pick(&[&b"9"[..], b" 1", b"0", b" v0"]);
    let filled = filling.iter().cycle().take(added);
    draft.0[line].extend(filled);
    draft.weigh(random)
}

/// A good text damaged.
pub fn harmed(random: &mut Random) -> Call {
    let mut draft = draft(random);
    draft.set(NODES, random.between(0, 60));
    let mut text = draft.bytes();
    damage_some(random, &mut text);
    Call {
        job: text,
        ..draft.weigh(random)
    }
}
