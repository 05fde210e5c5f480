//! SAME beside the Rust, which makes both lists of words and compares them, and beside WORDS, which prints them too.

use std::cell::RefCell;
use std::hint::black_box;

use oracle::PROGRAM_ROOM;
use puvainy::Entry;

use crate::job::Job;
use crate::lists::{EARLY, MANY_WORDS, words};
use crate::ours::Workspace;
use crate::table::{head, row};

/// 324 words on the left and 243 on the right: their counts answer.
const FEWER: Job = Job {
    right: "* + v0 + v1 v2 * + v3 + v4 v5 * + v0 + v1 v2 * + v3 + v4 v5 + v0 + v1 + v2 0",
    ..MANY_WORDS
};

/// The same 324 words on both sides: sums grouped the other way, all grouped the other way, and each sum's parts exchanged.
const SUMS_GROUPED: Job = Job {
    right: "* + + v0 v1 v2 * + + v3 v4 v5 * + + v0 v1 v2 * + + v3 v4 v5 + + + v0 v1 v2 v3",
    ..MANY_WORDS
};
const ALL_GROUPED: Job = Job {
    right: "* * * * + + v0 v1 v2 + + v3 v4 v5 + + v0 v1 v2 + + v3 v4 v5 + + + v0 v1 v2 v3",
    ..MANY_WORDS
};
const EXCHANGED: Job = Job {
    right: "* + + v2 v1 v0 * + + v5 v4 v3 * + + v2 v1 v0 * + + v5 v4 v3 + + + v3 v2 v1 v0",
    ..MANY_WORDS
};

pub const JOBS: [(&str, Job); 5] = [
    ("324 words beside 243", FEWER),
    ("324 words that part at word 0", EARLY),
    ("the same 324 words, sums grouped anew", SUMS_GROUPED),
    ("the same 324 words, all grouped anew", ALL_GROUPED),
    ("the same 324 words, sums turned round", EXCHANGED),
];

pub fn rows(workspace: &mut Workspace) {
    head("Rust", "ours");
    for (what, job) in JOBS {
        words(&format!("SAME, {what}"), Entry::Same, &job, workspace);
    }
    head("WORDS", "SAME");
    for (what, job) in JOBS {
        beside_words(what, &job, workspace);
    }
}

fn beside_words(what: &str, job: &Job, workspace: &mut Workspace) {
    let text = job.text();
    let workspace = RefCell::new(workspace);
    let call = |entry| {
        let mut workspace = workspace.borrow_mut();
        workspace.call(entry, black_box(&text), 0, PROGRAM_ROOM)
    };
    row(what, 200, || call(Entry::Words), || call(Entry::Same));
}
