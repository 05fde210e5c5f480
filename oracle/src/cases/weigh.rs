//! Cases for WEIGH: the least weight, lines to one result, totals that are lowered, ties, cost and nodes at their edges,
//! slots and room, and the refusals.

pub mod atmost;
mod refused;

use super::{Case, Due, case, none};
use crate::plain::weigh::job::write;
use crate::{Call, Entry, PROGRAM_ROOM, PROGRAM_SLOTS};

/// Cost, size, depth and nodes.
type Limits = [&'static str; 4];

const LIMITS: Limits = ["3", "7", "3", "1000"];
const ONES: &str = "1 1 1 1 1 1 1 1 1 1";
const A: [&str; 2] = ["v0", "+ v0 0"];
const D: [&str; 2] = ["v0", "+ 0 v0"];

pub fn cases() -> Vec<Case> {
    let mut all = lightest();
    all.extend(one_result());
    all.extend(lowered());
    all.extend(ordered());
    all.extend(at_limits());
    all.extend(unlike_find());
    all.extend(scarce());
    all.extend(refused::cases());
    all
}

fn job(sides: [&str; 2], limits: Limits, weights: &str) -> Call {
    let [left, right] = sides;
    let [cost, size, depth, nodes] = limits;
    Call {
        entry: Entry::Weigh,
        slots: PROGRAM_SLOTS,
        room: PROGRAM_ROOM,
        job: write(&[left, right, cost, size, depth, nodes, weights]),
    }
}

fn weigh(name: &'static str, sides: [&str; 2], limits: Limits, weights: &str, due: Due) -> Case {
    case(name, job(sides, limits, weights), due)
}

/// A proved answer for sides over v0 with this total and these terms opened, by one forward line at the root.
#[rustfmt::skip]
macro_rules! one_line {
    ($left:literal, $right:literal, $total:literal, $expanded:literal, $law:literal, $on:literal) => {
        Ok(concat!(
            "answer=proved\nleft=", $left, "\nright=", $right, "\nsteps=1\ntotal=", $total, "\nexpanded=", $expanded,
            "\nuses=", $law, "\nstep=", $law, " forward at=. to=", $right, "\nproof=", $on
        ))
    };
}

/// The same where nodes ran out with the path in hand, and no path is lighter than this.
#[rustfmt::skip]
macro_rules! in_hand {
    ($left:literal, $right:literal, $total:literal, $atleast:literal, $expanded:literal, $law:literal, $on:literal) => {
        Ok(concat!(
            "answer=atmost\nleft=", $left, "\nright=", $right, "\nsteps=1\ntotal=", $total, "\natleast=", $atleast,
            "\nexpanded=", $expanded, "\nuses=", $law, "\nstep=", $law, " forward at=. to=", $right, "\nproof=", $on
        ))
    };
}

use in_hand;

const D_PROVED: Due = Ok(
    "answer=proved\nleft=v0\nright=+ 0 v0\nsteps=2\ntotal=2\nexpanded=3\n\
    uses=add_comm,add_zero_right\n\
    step=add_zero_right forward at=. to=+ v0 0\nstep=add_comm forward at=. to=+ 0 v0\n\
    proof=(lam x0 (app (app (app (app (app (ref eq_trans) (ref x0)) \
    (app (app (ref add) (ref x0)) (ref zeroA))) (app (app (ref add) (ref zeroA)) (ref x0))) \
    (app (ref add_zero_right) (ref x0))) (app (app (ref add_comm) (ref x0)) (ref zeroA))))\n",
);

/// Case D's weights: ten terms are noted.
const OF_D: &str = "2 1 1 9 9 9 9 9 9 9";

#[rustfmt::skip]
fn lightest() -> Vec<Case> {
    const A_PROVED: Due = one_line!("v0", "+ v0 0", "2", "3", "add_zero_right",
        "(lam x0 (app (ref add_zero_right) (ref x0)))\n");
    const A_WEIGHTS: &str = "1 1 2 1 1 1 1 1 1 1";
    vec![
        weigh("A, two lighter lines beside it", A, LIMITS, A_WEIGHTS, A_PROVED),
        weigh("A, exchanged", [A[1], A[0]], LIMITS, A_WEIGHTS, A_PROVED),
        weigh("A, cost at the total", A, ["2", "7", "3", "1000"], A_WEIGHTS, A_PROVED),
        weigh("A, cost below the total", A, ["1", "7", "3", "1000"], A_WEIGHTS, none!("v0", "+ v0 0", "3", "no")),
        weigh("A, size at the result's", A, ["3", "3", "1", "1000"], A_WEIGHTS, A_PROVED),
        weigh("A, size below the result's", A, ["3", "2", "1", "1000"], A_WEIGHTS, none!("v0", "+ v0 0", "1", "no")),
        weigh("A, depth below the result's", A, ["3", "3", "0", "1000"], A_WEIGHTS, none!("v0", "+ v0 0", "1", "no")),
        weigh("D, two lines", D, LIMITS, OF_D, D_PROVED),
        weigh("D, each path above cost", D, ["1", "7", "3", "1000"], "1 1 1 9 9 9 9 9 9 9", none!("v0", "+ 0 v0", "2", "no")),
        weigh("cost 0, left opened", D, ["0", "7", "3", "1"], ONES, none!("v0", "+ 0 v0", "1", "no")),
        weigh("cost 0, no nodes", D, ["0", "7", "3", "0"], ONES, none!("v0", "+ 0 v0", "0", "yes")),
        weigh("c letters", ["c7", "+ c7 0"], LIMITS, ONES, one_line!("c7", "+ c7 0", "1", "1", "add_zero_right",
            "(lam x0 (app (ref add_zero_right) (ref x0)))\n")),
        weigh("a weight of 9, cost 9", A, ["9", "3", "1", "9"], "1 1 9 9 9 9 9 9 9 9", one_line!("v0", "+ v0 0", "9", "1",
            "add_zero_right", "(lam x0 (app (ref add_zero_right) (ref x0)))\n")),
    ]
}

/// Two lines lead to one result: the lightest counts, then the first.
#[rustfmt::skip]
fn one_result() -> Vec<Case> {
    const ONE: [&str; 2] = ["1", "* 1 1"];
    const LEFT: Due = one_line!("1", "* 1 1", "2", "1", "mul_one_left", "(app (ref mul_one_left) (ref oneA))\n");
    const RIGHT: Due = one_line!("1", "* 1 1", "2", "1", "mul_one_right", "(app (ref mul_one_right) (ref oneA))\n");
    const AT_ROOT: Due = Ok("answer=proved\nleft=+ 0 0\nright=+ + 0 0 0\nsteps=1\ntotal=1\nexpanded=3\n\
        uses=add_zero_right\nstep=add_zero_right forward at=. to=+ + 0 0 0\n\
        proof=(app (ref add_zero_right) (app (app (ref add) (ref zeroA)) (ref zeroA)))\n");
    vec![
        weigh("the first of two laws", ONE, LIMITS, "9 9 9 9 2 3 9 9 9 9", LEFT),
        weigh("the second of two laws", ONE, LIMITS, "9 9 9 9 3 2 9 9 9 9", RIGHT),
        weigh("two laws of one weight", ONE, LIMITS, "9 9 9 9 2 2 9 9 9 9", LEFT),
        weigh("the first law above cost", ONE, ["2", "7", "3", "1000"], "9 9 9 9 3 2 9 9 9 9", RIGHT),
        weigh("the first of two places", ["+ 0 0", "+ + 0 0 0"], ["1", "5", "2", "9"], "9 9 1 9 9 9 9 9 9 9", AT_ROOT),
    ]
}

/// From the first to the second a line leads at once, and a path of two others.
const APART: [&str; 2] = ["* v0 v1", "* v0 * 1 v1"];

/// What answers with these paths say from `uses=` on.
const AT_ONCE: &str = "uses=mul_one_left\nstep=mul_one_left forward at=r to=* v0 * 1 v1\n\
    proof=(lam x0 (lam x1 (app (app (app (app (ref eq_ap) \
    (lam hole (app (app (ref mul) (ref x0)) (ref hole)))) (ref x1)) \
    (app (app (ref mul) (ref oneA)) (ref x1))) (app (ref mul_one_left) (ref x1)))))\n";
const BY_DETOUR: &str = "uses=mul_assoc,mul_one_right\n\
    step=mul_one_right forward at=l to=* * v0 1 v1\nstep=mul_assoc back at=. to=* v0 * 1 v1\n\
    proof=(lam x0 (lam x1 (app (app (app (app (app (ref eq_trans) \
    (app (app (ref mul) (ref x0)) (ref x1))) \
    (app (app (ref mul) (app (app (ref mul) (ref x0)) (ref oneA))) (ref x1))) \
    (app (app (ref mul) (ref x0)) (app (app (ref mul) (ref oneA)) (ref x1)))) \
    (app (app (app (app (ref eq_ap) (lam hole (app (app (ref mul) (ref hole)) (ref x1)))) (ref x0)) \
    (app (app (ref mul) (ref x0)) (ref oneA))) (app (ref mul_one_right) (ref x0)))) \
    (app (app (app (ref eq_symm) (app (app (ref mul) (ref x0)) (app (app (ref mul) (ref oneA)) (ref x1)))) \
    (app (app (ref mul) (app (app (ref mul) (ref x0)) (ref oneA))) (ref x1))) \
    (app (app (app (ref mul_assoc) (ref x0)) (ref oneA)) (ref x1))))))\n";

/// An answer with one of them: what it says first, of the path's lines and weight, and of the terms opened.
fn apart(name: &'static str, limits: Limits, weights: &str, said: [&str; 3], path: &str) -> Case {
    let [verdict, totals, expanded] = said;
    let [left, right] = APART;
    let sides = format!("answer={verdict}\nleft={left}\nright={right}\n");
    let due = Ok(format!("{sides}{totals}\nexpanded={expanded}\n{path}"));
    let call = job(APART, limits, weights);
    Case { name, call, due }
}

/// The line's result is noted first, and the path is lighter or weighs as much.
#[rustfmt::skip]
fn lowered() -> Vec<Case> {
    const LIMITS: Limits = ["9", "5", "2", "1000"];
    const AT_COST: Limits = ["2", "5", "2", "1000"];
    let of = |name, limits, weights, totals, path| apart(name, limits, weights, ["proved", totals, "4"], path);
    vec![
        of("lowered by a path of more lines", LIMITS, "9 9 9 1 7 1 9 9 9 9", "steps=2\ntotal=2", BY_DETOUR),
        of("an equal total stays", LIMITS, "9 9 9 1 2 1 9 9 9 9", "steps=1\ntotal=2", AT_ONCE),
        of("the line above cost, the path at it", AT_COST, "9 9 9 1 3 1 9 9 9 9", "steps=2\ntotal=2", BY_DETOUR),
        weigh("the line above cost, no node for the path", APART, ["2", "5", "2", "1"], "9 9 9 1 3 1 9 9 9 9",
            none!("* v0 v1", "* v0 * 1 v1", "1", "yes")),
    ]
}

/// Three lines of one weight lead from v0: to `+ v0 0`, `* v0 1` and `* 1 v0`, in term order.
#[rustfmt::skip]
fn ordered() -> Vec<Case> {
    const FIRST: Due = one_line!("v0", "+ v0 0", "1", "1", "add_zero_right", "(lam x0 (app (ref add_zero_right) (ref x0)))\n");
    const SECOND: Due = one_line!("v0", "* v0 1", "1", "2", "mul_one_right", "(lam x0 (app (ref mul_one_right) (ref x0)))\n");
    const THIRD: Due = one_line!("v0", "* 1 v0", "1", "3", "mul_one_left", "(lam x0 (app (ref mul_one_left) (ref x0)))\n");
    const IN_HAND: Due = in_hand!("v0", "* 1 v0", "1", "1", "2", "mul_one_left", "(lam x0 (app (ref mul_one_left) (ref x0)))\n");
    const HEAVY: Due = one_line!("v0", "+ v0 0", "2", "3", "add_zero_right", "(lam x0 (app (ref add_zero_right) (ref x0)))\n");
    let of = |name, right, nodes, due| weigh(name, ["v0", right], ["1", "7", "3", nodes], ONES, due);
    vec![
        of("the first of a total", "+ v0 0", "1000", FIRST),
        of("the second, noted after the third", "* v0 1", "1000", SECOND),
        of("the third", "* 1 v0", "1000", THIRD),
        of("right comes up at the node limit", "* 1 v0", "3", THIRD),
        of("right would come up behind the node limit", "* 1 v0", "2", IN_HAND),
        of("the first, one node", "+ v0 0", "1", FIRST),
        of("no nodes", "+ v0 0", "0", none!("v0", "+ v0 0", "0", "yes")),
        weigh("a total before the term order", A, ["2", "3", "1", "3"], "1 1 2 1 1 1 1 1 1 1", HEAVY),
    ]
}

/// Nones with as many nodes as terms within cost, and one fewer. Within size 3 lines lead from v0 to four other terms.
#[rustfmt::skip]
fn at_limits() -> Vec<Case> {
    const LETTERS: [&str; 2] = ["v0", "v1"];
    let of = |name, limits, weights, due| weigh(name, LETTERS, limits, weights, due);
    vec![
        of("four terms within cost, all opened", ["1", "3", "1", "4"], ONES, none!("v0", "v1", "4", "no")),
        of("four terms within cost, one left", ["1", "3", "1", "3"], ONES, none!("v0", "v1", "3", "yes")),
        of("five terms within cost 2", ["2", "3", "1", "99"], ONES, none!("v0", "v1", "5", "no")),
        of("a heavy law above cost", ["1", "3", "1", "9"], "1 1 2 1 1 1 1 1 1 1", none!("v0", "v1", "3", "no")),
        of("the largest cost and weights", ["99", "3", "1", "4096"], "9 9 9 9 9 9 9 9 9 9", none!("v0", "v1", "5", "no")),
        of("the largest limits, no nodes", ["99", "31", "15", "0"], ONES, none!("v0", "v1", "0", "yes")),
    ]
}

/// What FIND answers otherwise: direct matches, and what only they prove.
#[rustfmt::skip]
fn unlike_find() -> Vec<Case> {
    const C: [&str; 2] = ["* v0 v1", "+ * v0 v1 0"];
    const C_PROVED: Due = Ok("answer=proved\nleft=+ * v0 v1 0\nright=* v0 v1\nsteps=1\ntotal=4\nexpanded=1\n\
        uses=add_zero_right\nstep=add_zero_right back at=. to=* v0 v1\n\
        proof=(lam x0 (lam x1 (app (app (app (ref eq_symm) (app (app (ref mul) (ref x0)) (ref x1))) \
        (app (app (ref add) (app (app (ref mul) (ref x0)) (ref x1))) (ref zeroA))) \
        (app (ref add_zero_right) (app (app (ref mul) (ref x0)) (ref x1))))))\n");
    const OF_C: &str = "9 9 4 9 9 9 9 9 9 9";
    vec![
        weigh("a direct match above cost", A, ["0", "7", "3", "1000"], ONES, none!("v0", "+ v0 0", "1", "no")),
        weigh("a direct match with limits 0", A, ["0"; 4], ONES, none!("v0", "+ v0 0", "0", "yes")),
        weigh("a letter that no line brings in", ["0", "* 0 v7"], ["1", "3", "1", "1000"], ONES, none!("0", "* 0 v7", "4", "no")),
        weigh("left larger than the limits", C, ["4", "3", "1", "1"], OF_C, C_PROVED),
        weigh("right larger than the limits", C, ["4", "2", "1", "1"], OF_C, none!("+ * v0 v1 0", "* v0 v1", "1", "no")),
    ]
}

/// Slots at the ten terms that case D notes, and room about its answer.
#[rustfmt::skip]
fn scarce() -> Vec<Case> {
    let of = |slots, room| Call { slots, room, ..job(D, LIMITS, OF_D) };
    let unopened = |slots, room| Call { slots, room, ..job(D, ["0"; 4], ONES) };
    const UNOPENED: Due = none!("v0", "+ 0 v0", "0", "yes");
    let length = D_PROVED.map_or(0, str::len);
    vec![
        case("D, ten slots", of(10, PROGRAM_ROOM), D_PROVED),
        case("7, D, nine slots", of(9, PROGRAM_ROOM), Err(7)),
        case("7, D, no slot", of(0, PROGRAM_ROOM), Err(7)),
        case("7 before 8", of(9, 0), Err(7)),
        case("8, D, ten slots and no room", of(10, 0), Err(8)),
        case("D, room for the answer", of(10, length), D_PROVED),
        case("8, D, a byte too few", of(10, length - 1), Err(8)),
        case("7, left alone and no slot", unopened(0, PROGRAM_ROOM), Err(7)),
        case("left alone in one slot", unopened(1, PROGRAM_ROOM), UNOPENED),
        case("8, a none in a byte too few", unopened(1, UNOPENED.map_or(0, str::len) - 1), Err(8)),
    ]
}
