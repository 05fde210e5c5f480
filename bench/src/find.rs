//! FIND: at the program's limits, at the Rust's own, and at the largest.

use std::hint::black_box;

use oracle::{Call, PROGRAM_ROOM, PROGRAM_SLOTS, checked, plain};
use puvainy::{Entry, MOST_SLOTS};
use upstream::search_bounded_rewrite;

use crate::job::Job;
use crate::ours::Workspace;
use crate::table::{head, row};

pub const PROGRAM: [usize; 4] = [3, 7, 3, 1_000];
pub const LARGEST: [usize; 4] = [16, 31, 15, 4_096];

/// What, left, right.
type Case = (&'static str, &'static str, &'static str);

/// As the program runs FIND: few slots, little room.
const SMALL: [Case; 5] = [
    ("case A", "v0", "+ v0 0"),
    ("case B", "+ v0 v1", "+ v1 v0"),
    ("case C", "* v0 v1", "+ * v0 v1 0"),
    ("case D", "v0", "+ 0 v0"),
    ("none", "v0", "* v0 v0"),
];

/// At the same limits, with slots enough for any search.
const MIDDLE: [Case; 5] = [
    ("none, case E's sides", "+ v0 0", "+ v0 * 0 v1"),
    ("none, two letters", "+ v0 v1", "* v0 v1"),
    ("none, three letters", "+ v0 * v1 v2", "* v0 + v1 v2"),
    ("proved, distributed", "+ * v0 v1 * v0 v2", "* v0 + v2 v1"),
    ("proved, three lines", "v0", "+ 0 * 1 v0"),
];

const SUM: &str = "+ v0 + v1 + v2 + v3 + v4 + v5 + v0 + v1 + v2 + v3 + v4 + v5 + v0 + v1 + v2 v3";
const PRODUCT: &str =
    "* v0 * v1 * v2 * v3 * v4 * v5 * v0 * v1 * v2 * v3 * v4 * v5 * v0 * v1 * v2 v3";

pub const BALANCED: &str =
    "+ + + + v0 v1 + v2 v3 + + v4 v5 + v0 v1 + + + v2 v3 + v4 v5 + + v0 v1 v2";

/// At the largest limits. Of the last the Rust notes more terms than there are slots, and we refuse.
const LARGE: [Case; 7] = [
    ("none, one letter", "v0", "v1"),
    ("none, three letters", "+ * v0 v1 * v0 v2", "* v1 + v0 v2"),
    ("none, a sum of 29 nodes", BALANCED, "* v0 v1"),
    ("none, a sum of 31 nodes", SUM, "* v0 v1"),
    ("none, a product of 31 nodes", PRODUCT, "* v5 v1"),
    (
        "proved, four lines",
        "+ * v0 v1 * v0 v2",
        "* v0 + * 1 v2 * v1 1",
    ),
    (
        "refused, 7",
        "+ + * v0 v1 * v0 v2 + * v3 v4 * v3 v5",
        "* + v0 v3 + v1 v4",
    ),
];

/// A job with what it is called, its slots and the rounds in which it is timed.
pub struct Timed {
    pub what: String,
    pub job: Job,
    pub slots: usize,
    pub rounds: usize,
}

/// The limits with what they are called, the slots and the rounds.
type Settings = (&'static str, [usize; 4], usize, usize);

pub fn jobs() -> Vec<Timed> {
    let program = ("program", PROGRAM, PROGRAM_SLOTS, 200);
    let middle = ("3 7 3 1000", PROGRAM, MOST_SLOTS, 100);
    let largest = ("largest", LARGEST, MOST_SLOTS, 3);
    let small = SMALL.iter().map(|case| timed(case, program));
    let more = MIDDLE.iter().map(|case| timed(case, middle));
    let most = LARGE.iter().map(|case| timed(case, largest));
    small.chain(more).chain(most).collect()
}

fn timed(&(what, left, right): &Case, (name, limits, slots, rounds): Settings) -> Timed {
    let what = format!("FIND, {name}: {what}");
    let job = Job {
        left,
        right,
        limits,
    };
    Timed {
        what,
        job,
        slots,
        rounds,
    }
}

pub fn rows(workspace: &mut Workspace) {
    head("Rust", "ours");
    for Timed {
        what,
        job,
        slots,
        rounds,
    } in jobs()
    {
        let text = job.text();
        let told = compare(&text, slots, workspace);
        let (equation, bounds) = (job.equation(), job.bounds());
        row(
            &format!("{what} ({told})"),
            rounds,
            || search_bounded_rewrite("bench", black_box(&equation), bounds),
            || workspace.call(Entry::Find, black_box(&text), slots, PROGRAM_ROOM),
        );
    }
}

/// Compares our answer with the oracle's, and says what it is and how many terms are noted.
fn compare(text: &[u8], slots: usize, workspace: &mut Workspace) -> String {
    let call = Call {
        entry: oracle::Entry::Find,
        slots,
        room: PROGRAM_ROOM,
        job: text.to_vec(),
    };
    let due = checked::answer(&call).unwrap_or_else(|difference| panic!("{difference}"));
    let given = workspace.answer(Entry::Find, text, slots, PROGRAM_ROOM);
    assert_eq!(given, due, "{}", String::from_utf8_lossy(text));
    let (_, noted) = plain::whole(oracle::Entry::Find, text).expect("the job is accepted");
    format!("{noted} noted")
}

/// The calls at the largest limits, five times each.
pub fn ours_alone(workspace: &mut Workspace) {
    for (_, left, right) in LARGE {
        let limits = LARGEST;
        let text = Job {
            left,
            right,
            limits,
        }
        .text();
        for _ in 0..5 {
            let told = workspace.call(Entry::Find, &text, MOST_SLOTS, PROGRAM_ROOM);
            black_box(told);
        }
    }
}
