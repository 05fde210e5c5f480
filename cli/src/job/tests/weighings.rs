//! Jobs of WEIGH, held to it likewise.

use super::*;

const WEIGHING: &str = "left=+ * v0 v1 0\nright=* v0 v1\ncost=9\nsize=9\ndepth=4\nnodes=1000\nweights=1 2 3 4 5 6 7 8 9 1\n";

const FAULTS: [Case; 33] = [
    (Fault::Mark, "left", "\u{feff}left", "the whole text"),
    (Fault::Windows, "9 1\n", "9 1\r\n", "line 7"),
    (Fault::Missing, WEIGHTS, "", "line 7 (weights)"),
    (Fault::Missing, WEIGHING, "", "line 1 (left)"),
    (Fault::Key, "cost", "steps", "line 3 (cost)"),
    (Fault::Key, "cost=9\n", "", "line 3 (cost)"),
    (Fault::Key, "nodes=1000\n", "", "line 6 (nodes)"),
    (Fault::Key, "weights", "weight", "line 7 (weights)"),
    (Fault::Second, "cost", "right=0\ncost", "line 3"),
    (Fault::Second, "9 1\n", "9 1\nright=0\n", "line 8"),
    (Fault::End, "9 1\n", "9 1", "line 7 (weights)"),
    (Fault::More, "9 1\n", "9 1\n\n", "line 8"),
    (Fault::Digits, "cost=9", "cost=09", "line 3 (cost)"),
    (Fault::Digits, "nodes=1000", "nodes=", "line 6 (nodes)"),
    (Fault::Weights, " 9 1", " 9", "line 7 (weights)"),
    (Fault::Weights, " 9 1", " 9 1 1", "line 7 (weights)"),
    (Fault::Weights, "1 2", "1  2", "line 7 (weights)"),
    (Fault::Weights, "1 2", "1,2", "line 7 (weights)"),
    (Fault::Weights, "1 2", "1 02", "line 7 (weights)"),
    (Fault::Weights, "=1 2", "= 1 2", "line 7 (weights)"),
    (Fault::Weights, " 9 1", " 9 1 ", "line 7 (weights)"),
    (Fault::Weights, WEIGHTS, "weights=\n", "line 7 (weights)"),
    (Fault::Empty, "right=* v0 v1", "right=", "line 2 (right)"),
    (Fault::Letters, "left=", MANY, "lines 1 and 2, 7 v letters"),
    (Fault::Bound, "size=9", "size=32", "line 4 (size)"),
    (Fault::Bound, "depth=4", "depth=16", "line 5 (depth)"),
    (Fault::Cost, "cost=9", "cost=100", "line 3 (cost)"),
    (Fault::Cost, "cost=9", HUGE, "line 3 (cost)"),
    (
        Fault::Weight,
        " 3 ",
        " 0 ",
        "line 7 (weights), 0 for add_zero_right",
    ),
    (
        Fault::Weight,
        " 9 1",
        " 9 10",
        "line 7 (weights), 10 for mul_zero",
    ),
    (
        Fault::Weight,
        "=1 2 3",
        "=1 12 0",
        "line 7 (weights), 12 for add_comm",
    ),
    (
        Fault::Weight,
        " 9 1",
        " 9 99999999999999999999999999",
        "line 7 (weights), 999999999999999999999999\u{2026} for mul_zero",
    ),
    (Fault::Same, "+ * v0 v1 0", "* v0 v1", "lines 1 and 2"),
];
const WEIGHTS: &str = "weights=1 2 3 4 5 6 7 8 9 1\n";
const HUGE: &str = "cost=99999999999999999999";

#[test]
fn the_place_of_each_fault_is_told() {
    for (due, from, to, place) in FAULTS {
        let job = WEIGHING.replacen(from, to, 1);
        assert_eq!(told(Entry::Weigh, &job), (due, place.to_owned()), "{job}");
    }
    let long = " ".repeat(1025);
    let due = (Fault::Long, "the whole text".to_owned());
    assert_eq!(told(Entry::Weigh, &long), due);
}

/// 16 is looked at behind 5, and before 6; of both that it stands for the cost is told first.
#[test]
fn cost_and_weights_are_looked_at_between_limits_and_equal_sides() {
    let same = WEIGHING.replacen("+ * v0 v1 0", "* v0 v1", 1);
    let weight = same.replacen("9 1\n", "9 0\n", 1);
    let cost = weight.replacen("cost=9", "cost=100", 1);
    let bound = cost.replacen("nodes=1000", "nodes=4097", 1);
    let faults = [same, weight, cost, bound].map(|job| told(Entry::Weigh, &job).0);
    let due = [Fault::Same, Fault::Weight, Fault::Cost, Fault::Bound];
    assert_eq!(faults, due);
}

/// Its limits begin with the cost, and its weights are none of them.
#[test]
fn the_cost_is_a_limit() {
    let job = Job::new(Entry::Weigh, WEIGHING.as_bytes());
    let due = [
        ("cost", 9, 99),
        ("size", 9, 31),
        ("depth", 4, 15),
        ("nodes", 1000, 4096),
    ];
    assert_eq!(job.limits(), due);
    assert!(job.is_weighed() && !Job::new(Entry::Find, JOB.as_bytes()).is_weighed());
}

#[test]
fn the_fault_found_is_one_of_the_number_given() {
    let weighed = |job: &str| job.replacen("steps=", "cost=", 1) + WEIGHTS;
    let counts = hold(Entry::Weigh, &JOBS.map(weighed), 100_000);
    let often = [0, 1, 2, 5, 16].map(|number| counts[number]);
    assert!(often.into_iter().all(|count| count > 100), "{counts:?}");
    let of_find = hold(Entry::Weigh, &JOBS.map(str::to_owned), 4_000);
    assert!(of_find[0] == 0 && of_find[1] > 3_000, "{of_find:?}");
}
