//! Jobs in the making: the values of their lines, and the calls around them.

use std::iter;

use super::random::Random;
use crate::plain::{
    job::{self, BOUNDS},
    term::Term,
};
use crate::{Call, Entry, PROGRAM_ROOM, PROGRAM_SLOTS};

/// The values of the lines: left, the right sides, the four limits; any bytes.
#[derive(Clone)]
pub struct Draft(pub Vec<Vec<u8>>);

impl Draft {
    pub fn new<'a>(
        left: &'a Term,
        rights: impl IntoIterator<Item = &'a Term>,
        limits: [usize; 4],
    ) -> Draft {
        let sides = iter::once(left).chain(rights);
        let sides = sides.map(|side| side.show().into_bytes());
        Draft(sides.chain(limits.map(digits)).collect())
    }

    /// How many sides there are, left among them.
    pub fn sides(&self) -> usize {
        self.0.len() - BOUNDS.len()
    }

    /// The value of a limit's line.
    pub fn limit(&mut self, limit: usize) -> &mut Vec<u8> {
        let at = self.sides() + limit;
        &mut self.0[at]
    }

    pub fn set_limit(&mut self, limit: usize, value: usize) {
        *self.limit(limit) = digits(value);
    }

    pub fn bytes(&self) -> Vec<u8> {
        job::write(&self.0)
    }

    /// The lines, each with its key and its end.
    pub fn lines(&self) -> Vec<Vec<u8>> {
        let text = self.bytes();
        text.split_inclusive(|&byte| byte == b'\n')
            .map(<[u8]>::to_vec)
            .collect()
    }

    /// FIND on this job, mostly with the program's buffers.
    pub fn find(&self, random: &mut Random) -> Call {
        call(random, Entry::Find, self.bytes())
    }

    /// Any entry on this job.
    pub fn any(&self, random: &mut Random) -> Call {
        any(random, self.bytes())
    }
}

/// Limits within their bounds.
pub fn any_limits(random: &mut Random) -> [usize; 4] {
    let bounds = BOUNDS.map(|most| most as usize);
    match random.below(5) {
        0 => [0; 4],
        1 => bounds,
        2 => bounds.map(|most| random.between(0, most)),
        _ => [3, 7, 3, 1_000],
    }
}

fn digits(value: usize) -> Vec<u8> {
    value.to_string().into_bytes()
}

/// Any entry, FIND in half of the calls.
pub fn any(random: &mut Random, job: Vec<u8>) -> Call {
    let entry = random.pick(&[Entry::Find, Entry::Find, Entry::Words, Entry::Rename]);
    call(random, entry, job)
}

/// Any entry, FIND in nine of ten calls: the others take one right side.
pub fn mostly_find(random: &mut Random, job: Vec<u8>) -> Call {
    let entry = match random.below(20) {
        0 => Entry::Words,
        1 => Entry::Rename,
        _ => Entry::Find,
    };
    call(random, entry, job)
}

pub fn call(random: &mut Random, entry: Entry, job: Vec<u8>) -> Call {
    let (slots, room) = match random.below(10) {
        0 => (65_535, 131_072),
        1 => (random.below(2_000), PROGRAM_ROOM),
        2 => (PROGRAM_SLOTS, random.below(2_000)),
        _ => (PROGRAM_SLOTS, PROGRAM_ROOM),
    };
    Call {
        entry,
        slots,
        room,
        job,
    }
}
