//! CHECK on what FIND proves, beside FIND, which finds it.

use std::hint::black_box;

use oracle::{Call, checked};
use puvainy::{Entry, MOST_SLOTS};

use crate::job::Job;
use crate::ours::{ROOM, Workspace};
use crate::table::bests;

/// A product of 16 letters that is grouped anew in 16 lines. No term on the way may have more than 31 nodes, which all have, or be deeper
/// than 5, so that there are few ways to go: only mul_assoc is left, and a grouping of 16 letters is no less than 4 deep.
pub const REGROUPED: Job = Job {
    left: "* * * v0 * v1 v2 * * v3 v4 v5 * * * v0 * v1 v2 v3 * * v4 * v5 v0 * * v1 v2 v3",
    right: "* * * * * v0 v1 * v2 v3 v4 v5 * * v0 v1 * * * v2 v3 * v4 v5 * * v0 v1 * v2 v3",
    limits: [16, 31, 5, 4_096],
};

/// One law is the whole equation: FIND opens no term.
const CASE_A: Job = Job {
    left: "v0",
    right: "+ v0 0",
    limits: [3, 7, 3, 1_000],
};

/// What CHECK answers to them.
const GOOD: &[u8] = b"answer=good\n";

pub fn rows(workspace: &mut Workspace) {
    println!("\nours: CHECK of the derivation that FIND finds, beside FIND with 65,535 slots");
    println!(
        "{:<34} {:>6} {:>7} {:>12} {:>10} {:>10} {:>14}",
        "", "lines", "bytes", "FIND µs", "CHECK µs", "ratio", "CHECK a second"
    );
    one("case A", &CASE_A, 200, workspace);
    one("product of 31 nodes", &REGROUPED, 20, workspace);
}

/// One line of the table: the best of several rounds of each, turn by turn.
fn one(what: &str, job: &Job, rounds: usize, workspace: &mut Workspace) {
    let (text, derivation) = (job.text(), derivation(job, workspace));
    let lines = derivation.iter().filter(|&&byte| byte == b'\n').count() - 2;
    let times = bests(rounds, 2, |call| match call {
        0 => workspace.call(Entry::Find, black_box(&text), MOST_SLOTS, ROOM),
        _ => workspace.call(Entry::Check, black_box(&derivation), 0, ROOM),
    });
    let (find, check) = (times[0], times[1]);
    println!(
        "{what:<34} {lines:>6} {:>7} {:>12.1} {:>10.2} {:>10.1} {:>14.0}",
        derivation.len(),
        find * 1e6,
        check * 1e6,
        find / check,
        1.0 / check
    );
}

/// The left, right and step lines of what FIND answers to the job, held to the oracle; CHECK has to find them good.
pub fn derivation(job: &Job, workspace: &mut Workspace) -> Vec<u8> {
    let text = job.text();
    let call = Call {
        entry: oracle::Entry::Find,
        slots: MOST_SLOTS,
        room: ROOM,
        job: text.clone(),
    };
    let due = checked::answer(&call).unwrap_or_else(|difference| panic!("{difference}"));
    let given = workspace.answer(Entry::Find, &text, MOST_SLOTS, ROOM);
    assert_eq!(given, due, "{}", String::from_utf8_lossy(&text));
    let answer = given.expect("it is not refused");
    let lines = answer.split_inclusive(|&byte| byte == b'\n');
    let is_kept = |line: &&[u8]| {
        let keys: [&[u8]; 3] = [b"left=", b"right=", b"step="];
        keys.iter().any(|key| line.starts_with(key))
    };
    let derivation: Vec<u8> = lines.filter(is_kept).flatten().copied().collect();
    let checked = workspace.answer(Entry::Check, &derivation, 0, ROOM);
    assert_eq!(checked.as_deref(), Ok(GOOD), "what FIND proves is good");
    derivation
}
