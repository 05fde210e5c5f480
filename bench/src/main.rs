//! FIND, WORDS, RENAME and SAME beside the Rust, SAME beside WORDS, WEIGH and CHECK beside FIND, and PUT beside RENAME, in one process, on the
//! same jobs; WORDS and RENAME with c letters beside the same without. Each pair's answers are compared first.
//!
//! With an argument, one part alone: `find`, `many`, `lists`, `same`, `weigh`, `check`, `put`, `noted`, or `ours`, the search at the largest limits on our
//! side, for a profiler.
//! `beside BEFORE NOW` times the entries of two releases, each a shared library.

mod beside;
mod check;
mod find;
mod job;
mod lists;
mod many;
mod noted;
mod ours;
mod put;
mod same;
mod table;
mod weigh;

fn main() {
    let mut workspace = ours::Workspace::new();
    let mut words = std::env::args().skip(1);
    match words.next().as_deref() {
        None => {
            find::rows(&mut workspace);
            many::rows(&mut workspace);
            lists::rows(&mut workspace);
            same::rows(&mut workspace);
            weigh::rows(&mut workspace);
            check::rows(&mut workspace);
            put::rows(&mut workspace);
            noted::rows(&mut workspace);
        }
        Some("find") => find::rows(&mut workspace),
        Some("many") => many::rows(&mut workspace),
        Some("lists") => lists::rows(&mut workspace),
        Some("same") => same::rows(&mut workspace),
        Some("weigh") => weigh::rows(&mut workspace),
        Some("check") => check::rows(&mut workspace),
        Some("put") => put::rows(&mut workspace),
        Some("noted") => noted::rows(&mut workspace),
        Some("ours") => find::ours_alone(&mut workspace),
        Some("beside") => {
            let (before, now) = (words.next(), words.next());
            beside::rows(before.as_deref(), now.as_deref(), &mut workspace);
        }
        Some(other) => {
            eprintln!(
                "bench: no part is called {other}: find, many, lists, same, weigh, check, put, noted, ours or beside BEFORE NOW"
            );
            std::process::exit(2);
        }
    }
}
