//! Cases for the catalogue: lists of calls from an empty one, each with the number that is due. Each list leaves
//! it empty again, so that any other may follow.

mod fixed;
mod refused;

use super::{LIMITS, sum_of};
use crate::checked::Judged;
use crate::plain::catalogue::{PLACES, returned};
use crate::plain::job;
use crate::{Ask, Sent};

/// Calls one after the other, with what each returns.
pub struct Play {
    pub name: &'static str,
    pub calls: Vec<(Sent, usize)>,
}

impl Play {
    /// The calls that return another number, or on which plain and the Rust differ.
    pub fn faults(&self) -> Vec<String> {
        let mut judged = Judged::new(false);
        let fault = |(sent, due): &(Sent, usize)| match judged.call(sent) {
            Err(difference) => Some(difference),
            Ok(kept) => {
                let given = returned(&kept);
                let sent = sent.show();
                (given != *due).then(|| format!("{sent}--- returned {given}, due {due}\n"))
            }
        };
        self.calls.iter().filter_map(fault).collect()
    }
}

/// The lists with c letters.
pub fn fixed_plays() -> Vec<Play> {
    fixed::plays()
}

/// The others.
pub fn plays() -> Vec<Play> {
    let mut all = vec![calls(), raw_kinds(), word_kinds(), full()];
    all.extend(refused::plays());
    all
}

fn play(name: &'static str, calls: Vec<(Sent, usize)>) -> Play {
    Play { name, calls }
}

/// A put with case A's limits.
fn put(number: usize, key: &str, sides: [&str; 2], due: usize) -> (Sent, usize) {
    put_as(&number.to_string(), key, sides, LIMITS, due)
}

fn put_as(
    number: &str,
    key: &str,
    [left, right]: [&str; 2],
    [steps, size, depth, nodes]: [&str; 4],
    due: usize,
) -> (Sent, usize) {
    let head = format!("number={number}\nkey={key}\n");
    let job = job::write(&[left, right, steps, size, depth, nodes]);
    (Sent::new(Ask::Put, [head.as_bytes(), &job].concat()), due)
}

/// A put of a whole text.
fn put_text(text: &str, due: usize) -> (Sent, usize) {
    (Sent::new(Ask::Put, text), due)
}

fn withdraw(number: usize, due: usize) -> (Sent, usize) {
    withdraw_text(&format!("number={number}\n"), due)
}

fn withdraw_text(text: &str, due: usize) -> (Sent, usize) {
    (Sent::new(Ask::Withdraw, text), due)
}

const A: [&str; 2] = ["v0", "+ v0 0"];
/// Case A's job.
const JOB: &str = "left=v0\nright=+ v0 0\nsteps=3\nsize=7\ndepth=3\nnodes=1000\n";

/// Both keys, both refusals of numbers, and an entry's place used again.
#[rustfmt::skip]
fn calls() -> Play {
    play("both keys", vec![
        put(1, "raw", A, 101),
        put(2, "raw", ["+ v5 0", "v5"], 101),
        put(3, "words", A, 102),
        put(4, "words", ["v1", "* 1 v1"], 102),
        put(5, "words", ["* v0 v1", "* v1 v0"], 103),
        put(6, "words", ["* v9 v7", "* v7 v9"], 103),
        put(999, "words", ["0", "v0"], 104),
        put(1, "raw", A, 13),
        put(1, "words", ["v0", "+ v0 1"], 13),
        withdraw(2, 104),
        withdraw(1, 103),
        withdraw(1, 14),
        withdraw(7, 14),
        put(1, "raw", A, 104),
        put(0, "raw", A, 1),
        put(1000, "raw", A, 1),
        put_as("01", "raw", A, LIMITS, 1),
        put(8, "Raw", A, 1),
        put(8, "raws", A, 1),
        put(8, "raw", ["+ v0", "v0"], 2),
        put(8, "raw", ["v0", "v0"], 6),
        put_as("8", "raw", A, ["17", "7", "3", "1000"], 5),
        put_text(&format!("number=8\n{JOB}"), 1),
        withdraw(0, 1),
        withdraw(1000, 1),
        withdraw_text("number=3", 1),
        withdraw_text("number=3\n\n", 1),
        withdraw_text("", 1),
        withdraw(3, 104),
        withdraw(4, 103),
        withdraw(5, 103),
        withdraw(6, 102),
        withdraw(999, 101),
        withdraw(1, 100),
    ])
}

/// One kind whatever the letters and whichever side comes first; another one where the terms differ.
#[rustfmt::skip]
fn raw_kinds() -> Play {
    play("kinds of raw keys", vec![
        put(1, "raw", ["* v5 v2", "v2"], 101),
        put(2, "raw", ["v0", "* v1 v0"], 101),
        put(3, "raw", ["* v0 v1", "v1"], 101),
        put(4, "raw", ["* v1 v0", "v1"], 102),
        put_as("5", "raw", ["v998", "* v999 v998"], ["0"; 4], 102),
        put(6, "raw", ["v0", "+ v0 0"], 103),
        put(7, "raw", ["v0", "+ 0 v0"], 104),
        put(8, "raw", ["0", "1"], 105),
        put(9, "raw", ["1", "0"], 105),
        put(10, "raw", ["0", "+ 0 0"], 106),
        put(11, "raw", ["v3", "v4"], 107),
        put(12, "raw", ["v4", "v3"], 107),
        withdraw(4, 106),
        withdraw(1, 106),
        withdraw(3, 106),
        withdraw(5, 106),
        withdraw(2, 105),
        withdraw(8, 105),
        withdraw(9, 104),
        withdraw(6, 103),
        withdraw(7, 102),
        withdraw(10, 101),
        withdraw(11, 101),
        withdraw(12, 100),
    ])
}

/// Entries whose words agree are one kind, whatever they are; the others go by their lists.
#[rustfmt::skip]
fn word_kinds() -> Play {
    play("kinds of word keys", vec![
        put(1, "words", ["v0", "+ v0 0"], 101),
        put(2, "words", ["+ v0 v1", "+ v1 v0"], 101),
        put(3, "words", ["0", "* 0 + v1 + v2 v3"], 101),
        put(4, "words", ["* + v0 1 + v1 0", "+ 1 1"], 102),
        put(5, "words", ["+ 1 * 1 1", "+ v9 * v3 v9"], 102),
        put(6, "words", ["+ 1 1", "+ v3 * v3 v9"], 103),
        put(7, "words", ["+ v9 * 0 v4", "1"], 104),
        put(8, "words", ["1", "v8"], 104),
        put(9, "words", ["0", "1"], 105),
        put(10, "words", ["* 1 1", "* v1 0"], 105),
        put(11, "raw", ["v0", "+ v0 0"], 106),
        put(12, "raw", ["0", "1"], 107),
        put(13, "words", ["v1", "+ v1 v1"], 108),
        put(14, "words", ["v1", "+ v1 + v1 v1"], 109),
        withdraw(1, 109),
        withdraw(11, 108),
        withdraw(3, 108),
        withdraw(2, 107),
        withdraw(9, 107),
        withdraw(10, 106),
        withdraw(12, 105),
        withdraw(4, 105),
        withdraw(5, 104),
        withdraw(6, 103),
        withdraw(7, 103),
        withdraw(8, 102),
        withdraw(13, 101),
        withdraw(14, 100),
    ])
}

/// 64 entries of 32 kinds, one more, and a place that is free again.
fn full() -> Play {
    let sum = |number: usize| {
        let letter = ["v0", "v7"][number % 2];
        sum_of(letter, number.div_ceil(4))
    };
    let key = |number: usize| ["raw", "words"][number / 2 % 2];
    let one = |number: usize, due| put(number, key(number), ["1", &sum(number)], due);
    // the kinds that these numbers have: a sum's length and a key
    let kinds = |numbers: &[usize]| {
        let mut kinds: Vec<_> = numbers
            .iter()
            .map(|&number| (number.div_ceil(4), key(number)))
            .collect();
        kinds.sort_unstable();
        kinds.dedup();
        100 + kinds.len()
    };
    let mut held = Vec::new();
    let mut calls = Vec::new();
    for number in 1..=PLACES {
        held.push(number);
        calls.push(one(number, kinds(&held)));
    }
    let all = kinds(&held);
    calls.extend([
        put(65, "raw", A, 15),
        put(999, "words", ["0", "1"], 15),
        put(64, "raw", A, 13),
        put(1, "words", A, 13),
        put(65, "raw", ["+ v0", "v0"], 2),
        put(1000, "raw", A, 1),
        withdraw(65, 14),
    ]);
    for number in [33, 1, 64] {
        held.retain(|&other| other != number);
        calls.push(withdraw(number, kinds(&held)));
        calls.push(withdraw(number, 14));
        held.push(number);
        calls.push(one(number, all));
        calls.push(put(500, "raw", A, 15));
    }
    while let Some(number) = held.pop() {
        calls.push(withdraw(number, kinds(&held)));
    }
    play("64 entries", calls)
}
