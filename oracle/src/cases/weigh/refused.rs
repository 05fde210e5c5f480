//! Cases for the refusals of WEIGH before its search: each reason, and their order.

use super::super::{Case, case, sum_of};
use super::{A, D, LIMITS, Limits, ONES, job, weigh};
use crate::Call;

const SEVEN: &str = "+ v0 + v1 + v2 + v3 + v4 + v5 v6";
const NINES: &str = "1 1 1 9 9 9 9 9 9";

pub fn cases() -> Vec<Case> {
    let mut all = malformed();
    all.extend(texts());
    all.extend(sides());
    all.extend(out_of_range());
    all.extend(in_order());
    all
}

/// Lines of weights that are none.
fn malformed() -> Vec<Case> {
    let weights = [
        ("1, eleven weights", format!("{NINES} 9 9")),
        ("1, nine weights", NINES.to_owned()),
        ("1, no weight", String::new()),
        ("1, a weight with a needless zero", format!("{NINES} 09")),
        ("1, two spaces", format!("1  {NINES}")),
        ("1, a space at the end", format!("{NINES} 9 ")),
        ("1, a space in front", format!(" {NINES} 9")),
        ("1, a space in the place of a weight", format!("{NINES} ")),
        ("1, commas", ONES.replace(' ', ",")),
        ("1, a weight below 0", format!("{NINES} -1")),
        ("1, a letter for a weight", format!("{NINES} x")),
        ("1, eleven weights, one of them 0", format!("{NINES} 9 0")),
    ];
    let weights = weights.into_iter();
    weights
        .map(|(name, weights)| weigh(name, D, LIMITS, &weights, Err(1)))
        .collect()
}

#[rustfmt::skip]
fn texts() -> Vec<Case> {
    let good = job(A, LIMITS, ONES);
    let text = |job: &[u8]| Call { job: job.to_vec(), ..good.clone() };
    let with = |old: &str, new: &str| {
        let job = String::from_utf8(good.job.clone()).expect("it is ASCII");
        text(job.replace(old, new).as_bytes())
    };
    let long = |length: usize| {
        let left = "0".repeat(length - job(["", A[1]], LIMITS, ONES).job.len());
        job([&left, A[1]], LIMITS, ONES)
    };
    vec![
        case("1, no text", text(b""), Err(1)),
        case("1, no last byte 10", text(&good.job[..good.job.len() - 1]), Err(1)),
        case("1, a byte 10 more", with(ONES, &format!("{ONES}\n")), Err(1)),
        case("1, steps in place of cost", with("cost=", "steps="), Err(1)),
        case("1, steps before cost", with("cost=", "steps=3\ncost="), Err(1)),
        case("1, no weights line", with(&format!("weights={ONES}\n"), ""), Err(1)),
        case("1, weights before nodes", with("nodes=1000\n", &format!("weights={ONES}\nnodes=1000\n")), Err(1)),
        case("1, two right sides", with("right=", "right=v1\nright="), Err(1)),
        case("1, cost with a needless zero", with("cost=3", "cost=03"), Err(1)),
        case("1, no cost", with("cost=3", "cost="), Err(1)),
        case("1, FIND of this job", Call { entry: crate::Entry::Find, ..good.clone() }, Err(1)),
        case("1, 1,025 bytes", long(1_025), Err(1)),
        case("2, 1,024 bytes", long(1_024), Err(2)),
    ]
}

#[rustfmt::skip]
fn sides() -> Vec<Case> {
    let six = "+ v0 + v1 + v2 + v3 + v4 + v5 c6";
    let none = Ok("answer=none\nleft=0\nright=+ v0 + v1 + v2 + v3 + v4 + v5 c6\nexpanded=1\ncut=no\n");
    let of = |name, sides, due| weigh(name, sides, ["0", "31", "15", "1"], ONES, due);
    vec![
        of("2, a sum short of a part", ["+ v0", "v0"], Err(2)),
        of("2, c100", ["v0", "c100"], Err(2)),
        of("3, 33 nodes", [&sum_of("v0", 17), "v0"], Err(3)),
        of("4, seven letters", [SEVEN, "0"], Err(4)),
        of("six v letters and a c letter", [six, "0"], none),
        of("6, equal sides", ["v0", "v0"], Err(6)),
    ]
}

/// 5 looks at size, depth and nodes, 16 at cost and weights.
#[rustfmt::skip]
fn out_of_range() -> Vec<Case> {
    let limits = |name, limits: Limits, number| weigh(name, A, limits, ONES, Err(number));
    let weights = |name, last: &str| weigh(name, A, LIMITS, &format!("{NINES} {last}"), Err(16));
    vec![
        limits("5, size 32", ["3", "32", "3", "1"], 5),
        limits("5, depth 16", ["3", "7", "16", "1"], 5),
        limits("5, 4,097 nodes", ["3", "7", "3", "4097"], 5),
        limits("5, nodes beyond 64 bits", ["3", "7", "3", "18446744073709551617"], 5),
        limits("16, cost 100", ["100", "7", "3", "1"], 16),
        limits("16, cost beyond 32 bits", ["4294967299", "7", "3", "1"], 16),
        limits("16, cost beyond 64 bits", ["18446744073709551619", "7", "3", "1"], 16),
        weights("16, a weight of 0", "0"),
        weights("16, a weight of 10", "10"),
        weights("16, a weight beyond 32 bits", "4294967297"),
        weights("16, a weight beyond 64 bits", "18446744073709551617"),
        weigh("16, the first weight", A, LIMITS, &format!("0 {NINES}"), Err(16)),
    ]
}

/// Several reasons, no slot and no room: the first that is looked at counts.
#[rustfmt::skip]
fn in_order() -> Vec<Case> {
    const HIGH: Limits = ["100", "7", "3", "4097"];
    let nodes_33 = sum_of("v0", 17);
    let heavy = format!("{NINES} 0");
    let of = |name, sides, limits, weights: &str, number| {
        let call = Call { slots: 0, room: 0, ..job(sides, limits, weights) };
        case(name, call, Err(number))
    };
    vec![
        of("1 before 2", ["+ v0", "v0"], HIGH, NINES, 1),
        of("2 before 3", [&nodes_33, "+ v0"], HIGH, &heavy, 2),
        of("3 before 4", [&nodes_33, SEVEN], HIGH, &heavy, 3),
        of("4 before 5", [SEVEN, SEVEN], HIGH, &heavy, 4),
        of("5 before 16 by cost", ["v0", "v0"], HIGH, ONES, 5),
        of("5 before 16 by a weight", ["v0", "v0"], ["0", "32", "3", "1"], &heavy, 5),
        of("16 by cost before 6", ["v0", "v0"], ["100", "7", "3", "1"], ONES, 16),
        of("16 by a weight before 6", ["v0", "v0"], ["99", "31", "15", "4096"], &heavy, 16),
        of("16 before 7", D, ["100", "7", "3", "1"], ONES, 16),
        of("6 before 7", ["v0", "v0"], ["99", "31", "15", "4096"], ONES, 6),
    ]
}
