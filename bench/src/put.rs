//! PUT beside RENAME on the same job, and WITHDRAW, with 63 entries held that are alike up to their last letters.

use std::hint::black_box;

use oracle::plain::catalogue::{Catalogue, Held, Key, PLACES, returned};
use oracle::plain::stored::{COUNT, LEFT, PLACE, RIGHT, front, lists};
use oracle::{Ask, PROGRAM_ROOM, Sent};
use puvainy::{ANSWER, CATALOGUE, Entry, entries};

use crate::job::Job;
use crate::lists::{ALIKE, MANY_WORDS};
use crate::ours::Workspace;
use crate::table::turns;

const ROUNDS: usize = 30;

/// The number that is put and withdrawn; the held ones have others.
const NUMBER: usize = 999;

pub fn rows(workspace: &mut Workspace) {
    println!(
        "\nours: RENAME, PUT of the same job into an empty catalogue and into one that holds 63 alike, and WITHDRAW, in µs"
    );
    println!(
        "{:<34} {:>12} {:>12} {:>12} {:>11} {:>12}",
        "", "RENAME", "PUT, none", "PUT, 63", "PUT/RENAME", "WITHDRAW"
    );
    for key in [Key::Words, Key::Raw] {
        for (what, job) in [("324 words a side", &MANY_WORDS), ("letters alike", &ALIKE)] {
            one(&format!("key={}, {what}", key.name()), key, job, workspace);
        }
    }
}

/// One line of the table: the best of several rounds of each call, turn by turn. Each put is withdrawn again.
fn one(what: &str, key: Key, job: &Job, workspace: &mut Workspace) {
    let job = job.text();
    let head = format!("number={NUMBER}\nkey={}\n", key.name());
    let put = [head.as_bytes(), &job].concat();
    let withdrawal = format!("number={NUMBER}\n").into_bytes();
    let (mut empty, mut full) = (vec![0; CATALOGUE], held_alike(&put));
    compare(&put, &withdrawal, &mut empty, &mut full);
    let times = turns(ROUNDS, 5, |call| match call {
        0 => workspace.call(Entry::Rename, black_box(&job), 0, PROGRAM_ROOM),
        1 => entries::put(black_box(&put), &mut empty),
        2 => entries::withdraw(black_box(&withdrawal), &mut empty),
        3 => entries::put(black_box(&put), &mut full),
        _ => entries::withdraw(black_box(&withdrawal), &mut full),
    });
    let times: Vec<f64> = times.into_iter().map(|time| time * 1e6).collect();
    let (rename, alone, put, withdraw) = (times[0], times[1], times[3], times[4]);
    println!(
        "{what:<34} {rename:>12.1} {alone:>12.1} {put:>12.1} {:>11.3} {withdraw:>12.1}",
        put / rename
    );
}

/// The entry that the oracle makes of a put.
fn held(put: &[u8]) -> Held {
    let mut catalogue = Catalogue::default();
    let kept = catalogue.call(&Sent::new(Ask::Put, put));
    assert_eq!(returned(&kept), ANSWER + 1, "the put is accepted");
    catalogue.at(0).expect("it takes the first place").clone()
}

/// A catalogue with 63 entries whose lists are those of the put but for the last item or letter, which differs in each:
/// comparing goes as far as it can. No puts lead to it, since such lists are no least ones; it is laid out by hand.
fn held_alike(put: &[u8]) -> Vec<u32> {
    let held = held(put);
    let mut catalogue = vec![0; CATALOGUE];
    for (at, place) in catalogue.chunks_mut(PLACE).take(PLACES - 1).enumerate() {
        let other = 10 + at as u32;
        let [left, mut right] = lists(&held);
        // a word list ends with the 0 behind its last word
        let behind = usize::from(held.key == Key::Words);
        let last = right.len() - 1 - behind;
        right[last] = other;
        place[..LEFT].copy_from_slice(&front(&held));
        place[0] = other;
        place[LEFT..LEFT + left.len()].copy_from_slice(&left);
        place[RIGHT..RIGHT + right.len()].copy_from_slice(&right);
    }
    catalogue[COUNT] = PLACES as u32 - 1;
    catalogue
}

/// Both puts and withdrawals are accepted with the counts that are due, and the put takes the last place of the full
/// one with the oracle's lists.
fn compare(put: &[u8], withdrawal: &[u8], empty: &mut [u32], full: &mut [u32]) {
    assert_eq!(entries::put(put, empty), ANSWER + 1);
    assert_eq!(entries::withdraw(withdrawal, empty), ANSWER);
    assert_eq!(entries::put(put, full), ANSWER + PLACES);
    let place = &full[(PLACES - 1) * PLACE..COUNT];
    let held = held(put);
    let [left, right] = lists(&held);
    assert_eq!(place[..LEFT], front(&held));
    assert_eq!(place[LEFT..LEFT + left.len()], left);
    assert_eq!(place[RIGHT..RIGHT + right.len()], right);
    assert_eq!(entries::withdraw(withdrawal, full), ANSWER + PLACES - 1);
}
