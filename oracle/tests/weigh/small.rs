//! Every equation between small terms, under some weights and costs.

use oracle::plain::job::Equation;
use oracle::plain::term::{FIRST_C, ONE, ZERO};
use oracle::plain::weigh::said::{Said, said};

use super::{ONES, answer, weigh};

#[path = "../common/mod.rs"]
mod common;

/// Equations over a v letter, a c letter, 0 and 1: proved, with a path in hand, none and none that is cut.
fn counts(cost: &str, nodes: &str, weights: &str) -> [usize; 4] {
    let mut counts = [0; 4];
    for Equation { left, right } in common::equations(&[3, FIRST_C, ZERO, ONE]) {
        let (left, right) = (left.show(), right.show());
        let call = weigh([&left, &right, cost, "5", "2", nodes, weights]);
        let at = match said(&answer(&call).expect("slots and room enough")) {
            Said::Proved { .. } => 0,
            Said::AtMost { .. } => 1,
            Said::None { cut: false, .. } => 2,
            Said::None { cut: true, .. } => 3,
        };
        counts[at] += 1;
    }
    counts
}

#[test]
fn small_equations() {
    let weights = "3 1 4 1 5 9 2 6 5 3";
    assert_eq!(
        [
            counts("2", "40", ONES),
            counts("9", "15", weights),
            counts("99", "1", ONES),
            counts("99", "1", weights),
            counts("9", "4", weights),
        ],
        [
            [80, 0, 1_180, 0],
            [48, 6, 660, 546],
            [8, 26, 0, 1_226],
            [20, 14, 0, 1_226],
            [34, 20, 0, 1_206],
        ]
    );
}
