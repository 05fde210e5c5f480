//! The renamings put into the Rust's terms are the Rust's own where no c letter occurs.

use oracle::generate::{KINDS, Names, Plan};
use oracle::plain::job::{Equation, Job};
use oracle::{Entry, rust};

/// The equations of jobs of this kind.
fn equations(name: &str, count: u64) -> Vec<Equation> {
    let kind = KINDS.iter().position(|kind| kind.name == name);
    let plan = Plan {
        kind: Some(kind.expect("a kind")),
        count,
        seed: 7,
        ..Plan::default()
    };
    let jobs = plan
        .calls()
        .map(|(_, call)| Job::read(call.entry, &call.job));
    jobs.flatten().flat_map(|job| job.equations).collect()
}

fn hold(equation: &Equation) {
    let job = Job::read(
        Entry::Rename,
        b"left=0\nright=1\nsteps=0\nsize=0\ndepth=0\nnodes=0\n",
    );
    let limits = job.expect("a good job").limits;
    let own = rust::block(Entry::Rename, equation, &limits);
    assert_eq!(rust::kept_text(equation), own);
}

#[test]
fn of_jobs() {
    for (name, count) in [
        ("renames", 150),
        ("words", 60),
        ("paths", 200),
        ("pairs", 200),
    ] {
        equations(name, count).iter().for_each(hold);
    }
}

#[test]
fn of_pairs() {
    let names = Names::default();
    for index in 0..200 {
        for [left, right] in names.pair(index).sides {
            hold(&Equation { left, right });
        }
    }
}
