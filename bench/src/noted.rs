//! What a noted term costs, as more and more are noted.

use std::hint::black_box;

use oracle::{PROGRAM_ROOM, plain};
use puvainy::{Entry, MOST_SLOTS};

use crate::job::Job;
use crate::ours::Workspace;
use crate::table::best;

/// Searches that would note more than 60,000 terms: from a small left side, whose results grow, and from one near the largest size.
const SIDES: [(&str, &str, &str); 2] = [
    (
        "left of 15 nodes",
        "+ + * v0 v1 * v0 v2 + * v3 v4 * v3 v5",
        "* + v0 v3 + v1 v4",
    ),
    (
        "left of 29 nodes",
        "+ + + + v0 v1 + v2 v3 + + v4 v5 + v0 v1 + + + v2 v3 + v4 v5 + + v0 v1 v2",
        "* v0 v1",
    ),
];

const ROUNDS: usize = 20;

pub fn rows(workspace: &mut Workspace) {
    println!("\nours, a call that ends in refusal 7 has noted as many terms as it has slots");
    println!("{:<20} {:>8} {:>12}", "", "noted", "µs a noted");
    for (what, left, right) in SIDES {
        for slots in [1_000, 10_000, 60_000] {
            by_slots(what, left, right, slots, workspace);
        }
    }
    println!("\nours, a call that opens as many terms as it may");
    println!(
        "{:<20} {:>8} {:>8} {:>12} {:>12}",
        "", "opened", "noted", "µs a noted", "µs an opened"
    );
    for (what, left, right) in SIDES {
        for nodes in [100, 1_000, 2_000] {
            by_nodes(what, left, right, nodes, workspace);
        }
    }
}

fn by_slots(
    what: &str,
    left: &'static str,
    right: &'static str,
    slots: usize,
    workspace: &mut Workspace,
) {
    let limits = [16, 31, 15, 4_096];
    let job = Job {
        left,
        right,
        limits,
    };
    let text = job.text();
    let mut call = || workspace.call(Entry::Find, black_box(&text), slots, PROGRAM_ROOM);
    assert_eq!(call(), 7, "{what}: more than {slots} terms are noted");
    let each = best(ROUNDS, call) * 1e6 / slots as f64;
    println!("{what:<20} {slots:>8} {each:>12.2}");
}

fn by_nodes(
    what: &str,
    left: &'static str,
    right: &'static str,
    nodes: usize,
    workspace: &mut Workspace,
) {
    let limits = [16, 31, 15, nodes];
    let job = Job {
        left,
        right,
        limits,
    };
    let text = job.text();
    let (due, noted) = plain::whole(oracle::Entry::Find, &text).expect("the job is accepted");
    let given = workspace.answer(Entry::Find, &text, MOST_SLOTS, PROGRAM_ROOM);
    assert_eq!(given, Ok(due), "{what}, {nodes} nodes");
    let call = || workspace.call(Entry::Find, black_box(&text), MOST_SLOTS, PROGRAM_ROOM);
    let time = best(ROUNDS, call) * 1e6;
    let (note, open) = (time / noted as f64, time / nodes as f64);
    println!("{what:<20} {nodes:>8} {noted:>8} {note:>12.2} {open:>12.2}");
}
