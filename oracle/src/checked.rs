//! The plain answer, compared with the Rust's on every job that passes the refusals before the search, with distances
//! over the Rust's lines on every such job of WEIGH, with other judges on every derivation that passes 1 to 4, and with
//! the Rust's lines on every put that passes 1 to 6.

mod cut;
mod derived;
mod kinds;
mod weigh;
mod words;

use std::fmt;

use crate::plain::nones::without_cut;
use crate::plain::parted::last_line_off;
use crate::plain::{self, Block, MOST_SLOTS, joined};
use crate::{Call, Entry, Given, rust};

pub use kinds::Judged;
pub use weigh::{beside_find, broken, changed};

/// A call on which two answers differ.
#[derive(Debug)]
pub struct Difference {
    pub call: Call,
    /// What is compared.
    pub what: &'static str,
    pub plain: String,
    pub other: String,
}

/// What the call gives, or how the answers differ.
pub fn answer(call: &Call) -> Result<Given, Box<Difference>> {
    match call.entry {
        Entry::Check => {
            derived::hold(call, &plain::check::check(&call.job))?;
            Ok(plain::answer(call.entry, &call.job, call.slots, call.room))
        }
        _ => of_job(call),
    }
}

/// What a call with a job gives.
fn of_job(call: &Call) -> Result<Given, Box<Difference>> {
    let &Call {
        entry,
        slots,
        room,
        ref job,
    } = call;
    let blocks = plain::blocks(entry, job, usize::MAX);
    let whole = blocks.clone();
    let whole = whole.and_then(|blocks| joined(&blocks, usize::MAX));
    match entry {
        Entry::Weigh => weigh::hold(call, &whole, blocks.as_deref().ok().and_then(noted))?,
        _ => beside_rust(call, &whole)?,
    }
    if let (Entry::Find, Ok(blocks)) = (entry, &blocks) {
        derived::hold_proved(call, &whole)?;
        cut::hold(call, blocks)?;
    }

    let is_held = |block: &Block| block.noted <= slots.min(MOST_SLOTS);
    let due = blocks.and_then(|blocks| {
        let held = blocks.into_iter().map(|block| block.filter(is_held));
        joined(&held.collect::<Vec<_>>(), room)
    });
    let given = plain::answer(entry, job, slots, room);
    let what = "plain and what is due with these slots and this room";
    same(call, what, &given, &due)?;
    Ok(given)
}

/// The terms noted for the only block.
fn noted(blocks: &[Option<Block>]) -> Option<usize> {
    match blocks {
        [Some(block)] => Some(block.noted),
        _ => None,
    }
}

/// Holds an answer to a job, slots and room enough, to the Rust's: without the `cut` lines of FIND's nones, and
/// without the last line of WORDS where it says no, which is held to the Rust's lists. SAME's is held to WORDS too,
/// WEIGH's to distances over the Rust's lines.
pub fn beside_rust(call: &Call, whole: &Given) -> Result<(), Box<Difference>> {
    if call.entry == Entry::Weigh {
        return weigh::hold(call, whole, None);
    }
    let shared = whole.clone().map(|text| match call.entry {
        Entry::Words => last_line_off(&text).0.to_vec(),
        _ => without_cut(&text),
    });
    let what = "plain without `cut` and `differ`, and Rust, slots and room enough";
    same(call, what, &shared, &rust::answer(call.entry, &call.job))?;
    match (call.entry, whole) {
        (Entry::Words, Ok(text)) => words::hold(call, text),
        (Entry::Same, _) => words::hold_first(call, whole),
        _ => Ok(()),
    }
}

fn same(
    call: &Call,
    what: &'static str,
    plain: &Given,
    other: &Given,
) -> Result<(), Box<Difference>> {
    if plain == other {
        return Ok(());
    }
    Err(differ(call, what, show(plain), show(other)))
}

fn differ(call: &Call, what: &'static str, plain: String, other: String) -> Box<Difference> {
    Box::new(Difference {
        call: call.clone(),
        what,
        plain,
        other,
    })
}

/// The answer, or the refusal as the program prints it.
pub fn show(given: &Given) -> String {
    match given {
        Ok(text) => String::from_utf8_lossy(text).into_owned(),
        Err(number) => format!("answer=refused\nnumber={number}\n"),
    }
}

impl fmt::Display for Difference {
    fn fmt(&self, out: &mut fmt::Formatter<'_>) -> fmt::Result {
        let Call {
            entry, slots, room, ..
        } = &self.call;
        let job = String::from_utf8_lossy(&self.call.job);
        writeln!(out, "difference: {}", self.what)?;
        writeln!(out, "entry={} slots={slots} room={room}", entry.name())?;
        writeln!(out, "--- job\n{job}")?;
        writeln!(out, "--- plain\n{}--- other\n{}", self.plain, self.other)
    }
}
