//! WORDS and RENAME at their worst cases, beside the Rust; with c letters beside our own calls without; and WORDS where lists part late.

use std::cell::RefCell;
use std::hint::black_box;

use oracle::{Call, PROGRAM_ROOM, checked};
use puvainy::Entry;

use crate::job::Job;
use crate::ours::Workspace;
use crate::table::{head, row};

/// Two sides of 31 nodes with six letters and 324 words each.
pub const MANY_WORDS: Job = Job {
    left: "* + v0 + v1 v2 * + v3 + v4 v5 * + v0 + v1 v2 * + v3 + v4 v5 + v0 + v1 + v2 v3",
    right: "* + v5 + v4 v3 * + v2 + v1 v0 * + v5 + v4 v3 * + v2 + v1 v0 + v5 + v4 + v3 v2",
    limits: [0; 4],
};

/// The same sizes, and the letters of a side are alike in it: no renaming can be passed over early.
pub const ALIKE: Job = Job {
    left: "* + v0 + v1 v2 * + v0 + v1 v2 * + v0 + v1 v2 * + v0 + v1 v2 * + 1 1 + 1 1",
    right: "* + v3 + v4 v5 * + v3 + v4 v5 * + v3 + v4 v5 * + v3 + v4 v5 * + 1 1 + 1 1",
    limits: [0; 4],
};

/// Both with c letters for the letters of each side's third factor: six v letters still, and as many words of the same lengths.
const MANY_WORDS_FIXED: Job = Job {
    left: "* + v0 + v1 v2 * + v3 + v4 v5 * + c0 + c1 c2 * + v3 + v4 v5 + v0 + v1 + v2 v3",
    right: "* + v5 + v4 v3 * + v2 + v1 v0 * + c2 + c1 c0 * + v2 + v1 v0 + v5 + v4 + v3 v2",
    limits: [0; 4],
};
const ALIKE_FIXED: Job = Job {
    left: "* + v0 + v1 v2 * + v0 + v1 v2 * + c0 + c1 c2 * + v0 + v1 v2 * + 1 1 + 1 1",
    right: "* + v3 + v4 v5 * + v3 + v4 v5 * + c3 + c4 c5 * + v3 + v4 v5 * + 1 1 + 1 1",
    limits: [0; 4],
};

/// Lists of 324 words of five letters that part at word 0, and at word 243.
pub const EARLY: Job = Job {
    left: "* + v0 + v1 + v2 v3 * + v0 + v1 v2 * + v3 + v4 v5 * + v0 + v1 v2 + v3 + v4 v5",
    right: "* + v1 + v2 + v3 v4 * + v0 + v1 v2 * + v3 + v4 v5 * + v0 + v1 v2 + v3 + v4 v5",
    limits: [0; 4],
};
const LATE: Job = Job {
    left: "* + v0 + v1 + v2 v3 * + v0 + v1 v2 * + v3 + v4 v5 * + v0 + v1 v2 + v3 + v4 v5",
    right: "* + v0 + v1 + v2 v4 * + v0 + v1 v2 * + v3 + v4 v5 * + v0 + v1 v2 + v3 + v4 v5",
    limits: [0; 4],
};

const WORDS: &str = "WORDS, 324 words a side";

pub fn rows(workspace: &mut Workspace) {
    head("Rust", "ours");
    words(WORDS, Entry::Words, &MANY_WORDS, workspace);
    rename(
        "RENAME, six letters, 324 words a side",
        &MANY_WORDS,
        workspace,
    );
    rename("RENAME, the same, letters alike", &ALIKE, workspace);
    head("v letters", "c letters");
    for (what, entry, rounds, pair) in [
        (WORDS, Entry::Words, 200, [MANY_WORDS, MANY_WORDS_FIXED]),
        (
            "RENAME, six v letters, 324 words a side",
            Entry::Rename,
            10,
            [MANY_WORDS, MANY_WORDS_FIXED],
        ),
        (
            "RENAME, the same, letters alike",
            Entry::Rename,
            10,
            [ALIKE, ALIKE_FIXED],
        ),
    ] {
        beside(what, entry, rounds, pair, workspace);
    }
    head("at word 0", "at word 243");
    let what = "WORDS, 324 words a side, lists that part";
    beside(what, Entry::Words, 200, [EARLY, LATE], workspace);
}

/// One entry on two jobs.
fn beside(what: &str, entry: Entry, rounds: usize, pair: [Job; 2], workspace: &mut Workspace) {
    let texts = pair.map(|job| job.text());
    for text in &texts {
        compare(entry, text, workspace);
    }
    let workspace = RefCell::new(workspace);
    let call = |text| {
        let mut workspace = workspace.borrow_mut();
        workspace.call(entry, black_box(text), 0, PROGRAM_ROOM)
    };
    row(what, rounds, || call(&texts[0]), || call(&texts[1]));
}

/// An entry beside the Rust's making of both lists, with their comparison.
pub fn words(name: &str, entry: Entry, job: &Job, workspace: &mut Workspace) {
    let text = job.text();
    let equation = job.equation();
    compare(entry, &text, workspace);
    row(
        name,
        200,
        || black_box(&equation).semiring_normalize(),
        || workspace.call(entry, black_box(&text), 0, PROGRAM_ROOM),
    );
}

fn rename(name: &str, job: &Job, workspace: &mut Workspace) {
    let text = job.text();
    let equation = job.equation();
    compare(Entry::Rename, &text, workspace);
    row(
        name,
        10,
        || {
            let lists = black_box(&equation).semiring_normalize();
            let lists = lists.expect("the words differ");
            (
                equation.canonicalize_variables(),
                lists.canonicalize_variables(),
            )
        },
        || workspace.call(Entry::Rename, black_box(&text), 0, PROGRAM_ROOM),
    );
}

/// Our answer held to the oracle's.
fn compare(entry: Entry, text: &[u8], workspace: &mut Workspace) {
    let call = Call {
        entry: oracle::Entry::named(entry.name()).expect("the oracle has it"),
        slots: 0,
        room: PROGRAM_ROOM,
        job: text.to_vec(),
    };
    let due = checked::answer(&call).unwrap_or_else(|difference| panic!("{difference}"));
    assert_eq!(workspace.answer(entry, text, 0, PROGRAM_ROOM), due);
}
