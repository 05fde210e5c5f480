//! The tenth wish of document 02, WEIGH: its answers are held to all terms that lines lead to, to FIND where weights are
//! alike, and to a search of the tests' own, wrong answers are found out, and every kind makes what it says.

mod beside;
mod faulty;
mod hand;
mod kinds;
mod reached;
mod read;
mod small;
mod told;

use oracle::generate::{KINDS, Plan};
use oracle::plain::weigh::job::{KEYS, WeighJob, write};
use oracle::{Call, Entry, Given, PROGRAM_ROOM, PROGRAM_SLOTS, checked};

type Values<'a> = [&'a str; KEYS.len()];

const ONES: &str = "1 1 1 1 1 1 1 1 1 1";

/// WEIGH of a job with these values, buffers enough.
fn weigh(values: Values) -> Call {
    Call {
        entry: Entry::Weigh,
        slots: PROGRAM_SLOTS,
        room: PROGRAM_ROOM,
        job: write(&values),
    }
}

/// What the call gives; all judges agree on it.
fn answer(call: &Call) -> Given {
    checked::answer(call).unwrap_or_else(|difference| panic!("{difference}"))
}

/// Calls of a kind.
fn made(kind: &str, count: u64) -> Vec<Call> {
    let plan = Plan {
        count,
        kind: KINDS.iter().position(|one| one.name == kind),
        ..Plan::default()
    };
    assert!(plan.kind.is_some(), "{kind}");
    plan.calls().map(|(_, call)| call).collect()
}

/// The jobs of a kind's calls that pass the refusals before the search.
fn jobs(kind: &str, count: u64) -> Vec<(Call, WeighJob)> {
    let calls = made(kind, count).into_iter();
    let jobs = calls.map(|call| (WeighJob::read(&call.job), call));
    jobs.filter_map(|(job, call)| Some((call, job.ok()?)))
        .collect()
}
