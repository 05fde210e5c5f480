//! Cases for WEIGH where nodes run out: a path in hand, before and after it is replaced, with the least total that waits
//! below it or at it; right never noted; slots and room.

use super::super::{Case, Due, case, none};
use super::{A, AT_ONCE, BY_DETOUR, D, D_PROVED, OF_D, apart, in_hand, job, weigh};
use crate::{Call, PROGRAM_ROOM, PROGRAM_SLOTS};

pub fn cases() -> Vec<Case> {
    let mut all = at_the_limit();
    all.extend(heavier());
    all.extend(replaced());
    all.extend(scarce());
    all
}

const D_IN_HAND: Due = Ok(
    "answer=atmost\nleft=v0\nright=+ 0 v0\nsteps=2\ntotal=2\natleast=2\nexpanded=2\n\
    uses=add_comm,add_zero_right\n\
    step=add_zero_right forward at=. to=+ v0 0\nstep=add_comm forward at=. to=+ 0 v0\n\
    proof=(lam x0 (app (app (app (app (app (ref eq_trans) (ref x0)) \
    (app (app (ref add) (ref x0)) (ref zeroA))) (app (app (ref add) (ref zeroA)) (ref x0))) \
    (app (ref add_zero_right) (ref x0))) (app (app (ref add_comm) (ref x0)) (ref zeroA))))\n",
);

/// Case D, whose right is noted by the second term, and comes up behind a third.
#[rustfmt::skip]
fn at_the_limit() -> Vec<Case> {
    let of = |name, nodes, due| weigh(name, D, ["3", "7", "3", nodes], OF_D, due);
    vec![
        of("no node, right not noted", "0", none!("v0", "+ 0 v0", "0", "yes")),
        of("one node, right not noted", "1", none!("v0", "+ 0 v0", "1", "yes")),
        of("right in hand, as light as what waits", "2", D_IN_HAND),
        of("right comes up just when nodes have run out", "3", D_PROVED),
        weigh("the same, sides exchanged", [D[1], D[0]], ["3", "7", "3", "2"], OF_D, D_IN_HAND),
        weigh("right never noted", D, ["3", "7", "3", "1"], "1 1 1 9 9 9 9 9 9 9", none!("v0", "+ 0 v0", "1", "yes")),
        weigh("right not noted above cost", D, ["1", "7", "3", "1"], OF_D, none!("v0", "+ 0 v0", "1", "yes")),
        weigh("none within cost, not cut", D, ["1", "7", "3", "2"], "1 1 1 9 9 9 9 9 9 9", none!("v0", "+ 0 v0", "2", "no")),
    ]
}

/// The path in hand is heavier than the lightest may be.
#[rustfmt::skip]
fn heavier() -> Vec<Case> {
    const HEAVY: &str = "1 1 9 1 1 1 1 1 1 1";
    const A_IN_HAND: Due = in_hand!("v0", "+ v0 0", "9", "1", "1", "add_zero_right", "(lam x0 (app (ref add_zero_right) (ref x0)))\n");
    const OF_C: Due = in_hand!("c7", "+ c7 0", "9", "1", "1", "add_zero_right", "(lam x0 (app (ref add_zero_right) (ref x0)))\n");
    const FIRST: Due = in_hand!("1", "* 1 1", "3", "1", "1", "mul_one_left", "(app (ref mul_one_left) (ref oneA))\n");
    const BY_NINE: Due = Ok("answer=atmost\nleft=v0\nright=* 1 + v0 0\nsteps=2\ntotal=10\natleast=1\nexpanded=2\n\
        uses=add_zero_right,mul_one_left\n\
        step=add_zero_right forward at=. to=+ v0 0\nstep=mul_one_left forward at=. to=* 1 + v0 0\n\
        proof=(lam x0 (app (app (app (app (app (ref eq_trans) (ref x0)) (app (app (ref add) (ref x0)) (ref zeroA))) \
        (app (app (ref mul) (ref oneA)) (app (app (ref add) (ref x0)) (ref zeroA)))) \
        (app (ref add_zero_right) (ref x0))) \
        (app (ref mul_one_left) (app (app (ref add) (ref x0)) (ref zeroA)))))\n");
    let of = |name, cost, due| weigh(name, A, [cost, "3", "1", "1"], HEAVY, due);
    vec![
        of("heavier than the lightest may be", "99", A_IN_HAND),
        of("cost at the total in hand", "9", A_IN_HAND),
        of("cost below it, right not noted", "8", none!("v0", "+ v0 0", "1", "yes")),
        weigh("a c letter, a path in hand", ["c7", "+ c7 0"], ["9", "3", "1", "1"], HEAVY, OF_C),
        weigh("of two lines to right the first", ["1", "* 1 1"], ["9", "3", "1", "1"], "9 9 1 9 3 3 9 9 9 9", FIRST),
        weigh("heavier by the last line", ["v0", "* 1 + v0 0"], ["20", "5", "2", "2"], "9 9 1 9 9 1 9 9 9 9", BY_NINE),
    ]
}

/// The fourth term opened leads to right by less than left does.
#[rustfmt::skip]
fn replaced() -> Vec<Case> {
    const WEIGHTS: &str = "9 9 2 3 7 1 9 9 9 9";
    let of = |name, nodes, verdict, totals, path| apart(name, ["9", "5", "2", nodes], WEIGHTS, [verdict, totals, nodes], path);
    vec![
        of("the first path in hand", "1", "atmost", "steps=1\ntotal=7\natleast=1", AT_ONCE),
        of("just before it is replaced", "3", "atmost", "steps=1\ntotal=7\natleast=1", AT_ONCE),
        of("just after it is replaced", "4", "atmost", "steps=2\ntotal=4\natleast=2", BY_DETOUR),
        of("the last with a path in hand", "6", "atmost", "steps=2\ntotal=4\natleast=2", BY_DETOUR),
        of("right comes up by the lighter path", "7", "proved", "steps=2\ntotal=4", BY_DETOUR),
    ]
}

/// Slots at the terms that case D notes with two nodes, and room about its answer.
#[rustfmt::skip]
fn scarce() -> Vec<Case> {
    const NOTED: usize = 5;
    let of = |slots, room| Call { slots, room, ..job(D, ["3", "7", "3", "2"], OF_D) };
    let length = D_IN_HAND.map_or(0, str::len);
    vec![
        case("in hand, slots for all noted", of(NOTED, PROGRAM_ROOM), D_IN_HAND),
        case("7, in hand, a slot too few", of(NOTED - 1, PROGRAM_ROOM), Err(7)),
        case("7 before 8, in hand", of(NOTED - 1, 0), Err(7)),
        case("in hand, room for the answer", of(NOTED, length), D_IN_HAND),
        case("8, in hand, a byte too few", of(PROGRAM_SLOTS, length - 1), Err(8)),
        case("8, in hand, no room", of(PROGRAM_SLOTS, 0), Err(8)),
    ]
}
