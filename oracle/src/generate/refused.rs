//! Jobs at and about the bounds of refusals 2 to 6, and several reasons at once.

use super::draft::Draft;
use super::random::Random;
use super::searched;
use super::terms::{holding, letters, mixed, term};
use crate::Call;
use crate::plain::job::{BOUNDS, MOST_LETTERS};

/// Values that are no term.
#[rustfmt::skip]
const NO_TERMS: [&[u8]; 36] = [
    b"", b" ", b"v", b"v00", b"v007", b"v01", b"v1000", b"v65536", b"v4294967296", b"v-1",
    b"v0x", b"V0", b"x0", b"2", b"10", b"00", b"01", b"+*", b"+v0 v1", b"+ v0", b"*", b"+",
    b"+ v0 v1 v2", b"v0 v1", b" v0", b"v0 ", b"+ v0  v1", b"+  v0 v1", b"- v0 v1", b"v0\r",
    b"v0\t", b"\xff", b"v0\0", b"v 0", b"+ 0 2", b"* v999 v9990",
];

/// What is no c letter, nor any other term.
#[rustfmt::skip]
const NO_C: [&[u8]; 20] = [
    b"c", b"c00", b"c01", b"c07", b"c099", b"c100", b"c999", b"c1000", b"c65536", b"c4294967296", b"c-1", b"c1c",
    b"C1", b"cv1", b"vc1", b"c 1", b"c1 ", b"v1000", b"v1099", b"1000",
];

/// Items that are none.
#[rustfmt::skip]
const NO_ITEMS: [&[u8]; 10] = [
    b"", b"v", b"v01", b"v1000", b"2", b"00", b"V1", b"\x0b", b"v1v", b"18446744073709551616",
];

/// Limits too large, some of which wrap to small numbers.
#[rustfmt::skip]
pub const TOO_LARGE: [&str; 9] = [
    "65536", "65539", "99999", "4294967295", "4294967296", "4294967299",
    "18446744073709551615", "18446744073709551619", "1000000000000000000000000000000003",
];

/// One side, or both, no term.
pub fn sides(random: &mut Random) -> Call {
    let mut draft = searched::draft(random);
    let side = random.below(2);
    spoil_side(random, &mut draft, side);
    if random.percent(10) {
        spoil_side(random, &mut draft, 1 - side);
    }
    draft.any(random)
}

/// Makes a side no term.
pub fn spoil_side(random: &mut Random, draft: &mut Draft, side: usize) {
    spoil_term(random, &mut draft.0[side]);
}

/// Makes what stands for a term none.
pub fn spoil_term(random: &mut Random, value: &mut Vec<u8>) {
    let mut items: Vec<Vec<u8>> = value
        .split(|&byte| byte == b' ')
        .map(<[u8]>::to_vec)
        .collect();
    let at = random.below(items.len());
    match random.below(6) {
        0 | 1 => {
            *value = no_term(random);
            return;
        }
        2 => items[at] = no_item(random),
        3 => {
            items.remove(at);
        }
        4 => items.insert(at, b"v0".to_vec()),
        _ => items.insert(at, Vec::new()),
    }
    *value = items.join(&b' ');
}

fn no_term(random: &mut Random) -> Vec<u8> {
    no_c(random).unwrap_or_else(|| random.pick(&NO_TERMS).to_vec())
}

fn no_item(random: &mut Random) -> Vec<u8> {
    no_c(random).unwrap_or_else(|| random.pick(&NO_ITEMS).to_vec())
}

/// Where c letters are drawn, mostly what is none.
fn no_c(random: &mut Random) -> Option<Vec<u8>> {
    let is_meant = random.has_c() && random.percent(70);
    is_meant.then(|| random.pick(&NO_C).to_vec())
}

/// Sides of 29 nodes and more, and runs of 30 to 34 items that are no term.
pub fn nodes(random: &mut Random) -> Call {
    let pool = letters(random, 3);
    let sizes = [(); 2].map(|()| random.pick(&[1, 29, 31, 31, 33, 35, 63]));
    let [left, right] = sizes.map(|size| term(random, size, &pool));
    let mut draft = Draft::new(&left, [&right], [1, 7, 3, 10]);
    if random.percent(30) {
        let side = random.below(2);
        let value = draft.0[side].clone();
        draft.0[side] = match random.below(3) {
            0 => [&value[..], b" v0"].concat(),
            1 => [b"+ ", &value[..]].concat(),
            _ => no_term(random),
        };
    }
    draft.any(random)
}

/// The most letters that a side of 31 nodes holds.
pub const MOST_HELD: usize = 16;

/// Five to eight v letters, split over both sides, and c letters as many as they hold.
pub fn many_letters(random: &mut Random) -> Call {
    let count = random.between(MOST_LETTERS - 1, MOST_LETTERS + 2);
    let pool = mixed(random, count, 2 * MOST_HELD);
    let least = pool.len().saturating_sub(MOST_HELD);
    let cut = random.between(least, pool.len().min(MOST_HELD));
    let overlap = random.below(cut + 1).min(random.below(3));
    let left = holding(random, &pool[..cut]);
    let right = holding(random, &pool[cut - overlap..]);
    Draft::new(&left, [&right], [1, 9, 5, 10]).any(random)
}

/// Limits at 0, 1, and about their bounds, the others small.
pub fn limits(random: &mut Random) -> Call {
    let mut draft = searched::draft(random);
    draft.set_limit(0, random.between(0, 2));
    draft.set_limit(3, random.between(0, 50));
    let one = random.below(4);
    bound(random, &mut draft, one);
    if random.percent(30) {
        draft.set_limit(1, random.between(0, 5));
        let other = random.below(4);
        bound(random, &mut draft, other);
    }
    draft.any(random)
}

/// Sets a limit at 0, at 1 or about its bound.
pub fn bound(random: &mut Random, draft: &mut Draft, limit: usize) {
    let most = BOUNDS[limit] as usize;
    match random.below(6) {
        0 => *draft.limit(limit) = random.pick(&TOO_LARGE).into(),
        1 => draft.set_limit(limit, random.below(2)),
        _ => draft.set_limit(limit, random.around(most)),
    }
}

/// The same term twice.
pub fn equal(random: &mut Random) -> Call {
    let mut draft = searched::draft(random);
    draft.0[1] = draft.0[0].clone();
    if random.percent(30) {
        let limit = random.below(4);
        bound(random, &mut draft, limit);
    }
    draft.any(random)
}

/// Two or three reasons at once, of which the lowest number counts.
pub fn several(random: &mut Random) -> Call {
    let mut draft = searched::draft(random);
    for _ in 0..random.between(2, 3) {
        add_reason(random, &mut draft);
    }
    draft.any(random)
}

/// Gives one of refusals 1 to 6 a reason.
pub fn add_reason(random: &mut Random, draft: &mut Draft) {
    let side = random.below(draft.sides());
    match random.below(6) {
        0 => *draft.limit(random.below(4)) = random.pick(&[&b""[..], b"03", b"3 ", b"x"]).to_vec(),
        1 => spoil_side(random, draft, side),
        2 => {
            let pool = letters(random, 3);
            draft.0[side] = term(random, 33, &pool).show().into_bytes();
        }
        3 => {
            let pool = mixed(random, 7, MOST_HELD);
            draft.0[side] = holding(random, &pool).show().into_bytes();
        }
        4 => *draft.limit(random.below(4)) = random.pick(&TOO_LARGE).into(),
        _ => {
            let other = if side == 0 { 1 } else { 0 };
            draft.0[side] = draft.0[other].clone();
        }
    }
}
