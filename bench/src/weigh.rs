//! WEIGH beside FIND on the same equations, with every law weighing 1, and WEIGH with weights that differ: what an opened term costs. And what a path
//! in hand costs beside a none.

use std::hint::black_box;

use oracle::{Call, checked};
use puvainy::{Entry, MOST_SLOTS};

use crate::find::{BALANCED, LARGEST, PROGRAM};
use crate::job::Job;
use crate::ours::{ROOM, Workspace};
use crate::table::{best, bests};

const ONES: &str = "1 1 1 1 1 1 1 1 1 1";
const MIXED: &str = "2 1 3 2 4 4 5 5 9 9";
const NINES: &str = "9 9 9 9 9 9 9 9 9 9";

/// What, left, right, the most terms opened: none of them is proved, and all have slots enough.
type Case = (&'static str, &'static str, &'static str, usize);

const SMALL: [Case; 3] = [
    ("one letter", "v0", "v1", 1_000),
    ("two letters", "+ v0 v1", "* v0 v1", 1_000),
    ("three letters", "+ v0 * v1 v2", "* v0 + v1 v2", 1_000),
];

const LARGE: [Case; 3] = [
    ("one letter", "v0", "v1", 4_096),
    ("three letters", "+ * v0 v1 * v0 v2", "* v1 + v0 v2", 4_096),
    ("29 nodes", BALANCED, "* v0 v1", 2_000),
];

/// With weights that differ more results are within cost, and so more are noted.
const WEIGHED: [Case; 3] = [
    ("one letter", "v0", "v1", 4_096),
    ("three letters", "+ * v0 v1 * v0 v2", "* v1 + v0 v2", 2_000),
    ("29 nodes", BALANCED, "* v0 v1", 500),
];

/// What, left, a right side that is in hand where nodes run out, one that is never noted, size, depth, nodes and weights: the search is the same for
/// both, which come behind left in term order.
type Held = (&'static str, [&'static str; 3], [usize; 3], &'static str);

const HELD: [Held; 2] = [
    (
        "1 line",
        ["v0", "+ v0 0", "v1"],
        [31, 15, 3_500],
        "1 1 9 1 1 1 1 1 1 1",
    ),
    (
        "60 lines",
        [
            "+ * * v0 v1 v0 * * v0 v0 * * + v0 v0 v0 * v0 + v0 1",
            "+ * * * + v0 v0 v0 * v0 + 1 v0 * v0 v0 * v0 * v1 v0",
            "+ * * * + v0 v0 v0 * v0 + 1 v0 * v0 v0 * v0 * v1 v1",
        ],
        [21, 5, 1_366],
        ONES,
    ),
];

fn job((_, left, right, nodes): Case, [steps, size, depth, _]: [usize; 4]) -> Job {
    let limits = [steps, size, depth, nodes];
    Job {
        left,
        right,
        limits,
    }
}

/// A job of WEIGH: the sides and limits of one of FIND, whose steps are nothing here, a cost and weights.
fn text(job: &Job, cost: usize, weights: &str) -> Vec<u8> {
    let Job { left, right, .. } = job;
    let [_, size, depth, nodes] = job.limits;
    format!(
        "left={left}\nright={right}\ncost={cost}\nsize={size}\ndepth={depth}\nnodes={nodes}\nweights={weights}\n"
    )
    .into_bytes()
}

pub fn rows(workspace: &mut Workspace) {
    println!("\nours: WEIGH, every law weighing 1, beside FIND: µs an opened term");
    println!(
        "{:<38} {:>8} {:>8} {:>10} {:>10} {:>8}",
        "", "FIND", "WEIGH", "FIND µs", "WEIGH µs", "ratio"
    );
    for (limits, name, cases) in [(PROGRAM, "3 7 3 1000", SMALL), (LARGEST, "largest", LARGE)] {
        for case in cases {
            let (what, job) = (case.0, job(case, limits));
            beside_find(&format!("{name}: {what}"), &job, workspace);
        }
    }
    println!("\nours: WEIGH at the largest limits, cost 99");
    println!(
        "{:<38} {:>8} {:>12} {:>12}",
        "", "opened", "µs a call", "µs an opened"
    );
    for (what, text) in jobs() {
        alone(&what, &text, workspace);
    }
    println!("\nours: WEIGH with a path in hand beside a none: µs a call");
    println!(
        "{:<38} {:>8} {:>12} {:>12} {:>8}",
        "", "opened", "none", "in hand", "ratio"
    );
    for case in HELD {
        held(case, workspace);
    }
}

/// A path in hand beside a none that opens the same terms.
fn held(
    (what, [left, right, other], [size, depth, nodes], weights): Held,
    workspace: &mut Workspace,
) {
    let texts = [right, other].map(|right| {
        let limits = [0, size, depth, nodes];
        text(
            &Job {
                left,
                right,
                limits,
            },
            99,
            weights,
        )
    });
    for (text, due) in texts.iter().zip(["answer=atmost", "answer=none"]) {
        let answer = workspace.answer(Entry::Weigh, text, MOST_SLOTS, ROOM);
        let answer = String::from_utf8(answer.expect("it is not refused")).expect("it is text");
        assert!(answer.starts_with(due), "{answer}");
        assert_eq!(
            opened(Entry::Weigh, oracle::Entry::Weigh, text, workspace),
            nodes
        );
    }
    let times = bests(5, 2, |call| {
        workspace.call(Entry::Weigh, black_box(&texts[call]), MOST_SLOTS, ROOM)
    });
    println!(
        "{what:<38} {nodes:>8} {:>12.1} {:>12.1} {:>8.2}",
        times[1] * 1e6,
        times[0] * 1e6,
        times[0] / times[1]
    );
}

/// At the largest limits but for nodes, with each of three lists of weights.
pub fn jobs() -> Vec<(String, Vec<u8>)> {
    let weights = [(ONES, "all 1"), (MIXED, "1 to 9"), (NINES, "all 9")];
    let each = weights
        .into_iter()
        .flat_map(|of| WEIGHED.map(|case| (of, case)));
    each.map(|((weights, name), case)| {
        let text = text(&job(case, LARGEST), 99, weights);
        (format!("{name}: {}", case.0), text)
    })
    .collect()
}

/// One line of the table: the best of several rounds of each, turn by turn.
fn beside_find(what: &str, job: &Job, workspace: &mut Workspace) {
    let (find, weigh) = (job.text(), text(job, job.limits[0], ONES));
    let opened = [
        opened(Entry::Find, oracle::Entry::Find, &find, workspace),
        opened(Entry::Weigh, oracle::Entry::Weigh, &weigh, workspace),
    ];
    let times = bests(5, 2, |call| match call {
        0 => workspace.call(Entry::Find, black_box(&find), MOST_SLOTS, ROOM),
        _ => workspace.call(Entry::Weigh, black_box(&weigh), MOST_SLOTS, ROOM),
    });
    let each = |which: usize| times[which] * 1e6 / opened[which] as f64;
    println!(
        "{what:<38} {:>8} {:>8} {:>10.2} {:>10.2} {:>8.2}",
        opened[0],
        opened[1],
        each(0),
        each(1),
        each(1) / each(0)
    );
}

fn alone(what: &str, text: &[u8], workspace: &mut Workspace) {
    let opened = opened(Entry::Weigh, oracle::Entry::Weigh, text, workspace);
    let time = best(5, || {
        workspace.call(Entry::Weigh, black_box(text), MOST_SLOTS, ROOM)
    }) * 1e6;
    println!(
        "{what:<38} {opened:>8} {time:>12.1} {:>12.2}",
        time / opened as f64
    );
}

/// How many terms a none opens, after its answer is compared with the oracle's.
fn opened(entry: Entry, same: oracle::Entry, text: &[u8], workspace: &mut Workspace) -> usize {
    let call = Call {
        entry: same,
        slots: MOST_SLOTS,
        room: ROOM,
        job: text.to_vec(),
    };
    let due = checked::answer(&call).unwrap_or_else(|difference| panic!("{difference}"));
    let given = workspace.answer(entry, text, MOST_SLOTS, ROOM);
    assert_eq!(given, due, "{}", String::from_utf8_lossy(text));
    let answer = String::from_utf8(given.expect("it is not refused")).expect("it is text");
    let line = answer
        .lines()
        .find_map(|line| line.strip_prefix("expanded="));
    line.expect("it says how many").parse().expect("a number")
}
