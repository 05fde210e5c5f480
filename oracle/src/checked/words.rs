//! The last line of WORDS, by the lists that the Rust has; and its first, which is SAME's answer.

use super::{Difference, differ, same};
use crate::plain::job::Job;
use crate::plain::parted::{first_line, last_line_off};
use crate::{Call, Entry, Given, plain, rust};

/// Holds the last line of an answer: it names the place where the Rust's lists part, and there is none where they do
/// not.
pub fn hold(call: &Call, text: &[u8]) -> Result<(), Box<Difference>> {
    let job = Job::read(call.entry, &call.job).expect("a good job");
    let place = rust::parting(&job.equations[0]);
    let due = place.map_or(String::new(), |place| format!("differ={place}\n"));
    let (_, last) = last_line_off(text);
    if last == due.as_bytes() {
        return Ok(());
    }
    let last = String::from_utf8_lossy(last).into_owned();
    let what = "the last line of plain, and where the Rust's lists part";
    Err(differ(call, what, last, due))
}

/// Holds what SAME gives to a job, room enough, to WORDS: the first line that it answers, or its refusal.
pub fn hold_first(call: &Call, whole: &Given) -> Result<(), Box<Difference>> {
    let words = plain::whole(Entry::Words, &call.job);
    let due = words.map(|(text, _)| first_line(&text).to_vec());
    same(call, "SAME and the first line of WORDS", whole, &due)
}
