//! The ninth wish of document 02: SAME prints the first line of WORDS alone. It is held to WORDS on all small equations
//! and on generated ones, wrong lines are found out, and every kind makes what it says.

mod common;

use std::collections::BTreeSet;

use oracle::generate::{KINDS, Plan};
use oracle::plain::job::{self, Equation, Job};
use oracle::plain::same::{NO, YES, count};
use oracle::plain::term::{FIRST_C, ONE, ZERO};
use oracle::plain::words::{first_difference, words};
use oracle::{Call, Entry, checked, plain};

fn same(left: &str, right: &str) -> Call {
    Call {
        entry: Entry::Same,
        slots: 0,
        room: YES.len(),
        job: job::write(&[left, right, "3", "7", "3", "1000"]),
    }
}

/// What the call gives; plain, the Rust and WORDS agree on it.
fn answer(call: &Call) -> Result<Vec<u8>, u8> {
    checked::answer(call).unwrap_or_else(|difference| panic!("{difference}"))
}

/// Every equation between terms of at most three nodes over two v letters, a c letter, 0 and 1.
#[test]
fn small_equations() {
    let (mut yes, mut by_counts, mut by_lists) = (0, 0, 0);
    for Equation { left, right } in common::equations(&[3, 8, FIRST_C, ZERO, ONE]) {
        let counts = [&left, &right].map(count);
        assert_eq!(counts, [&left, &right].map(|side| words(side).len()));
        let given = answer(&same(&left.show(), &right.show())).expect("a good job");
        match given == YES.as_bytes() {
            true => yes += 1,
            false if counts[0] != counts[1] => by_counts += 1,
            false => by_lists += 1,
        }
    }
    assert_eq!([yes, by_counts, by_lists], [194, 1_864, 912]);
}

/// Whether a text is told as a wrong answer to a call.
fn told(call: &Call, text: &str) -> bool {
    let text = Ok(text.as_bytes().to_vec());
    checked::beside_rust(call, &text).is_err()
}

#[test]
fn wrong_lines_are_told() {
    let no = [
        same("+ v0 v1", "v0"),
        same("+ v0 v1", "+ v0 v0"),
        same("0", "1"),
    ];
    let yes = [same("+ v0 v1", "+ v1 v0"), same("0", "* 0 v0")];
    let both = no.iter().map(|call| (call, NO, YES));
    let both = both.chain(yes.iter().map(|call| (call, YES, NO)));
    for (call, right, wrong) in both {
        assert!(!told(call, right));
        let line = right.trim_end();
        let others = [
            wrong.to_owned(),
            String::new(),
            line.to_owned(),
            format!("{line} \n"),
            format!("{right}\n"),
            format!("{right}{right}"),
            format!("{right}{wrong}"),
            format!("{right}differ=0\n"),
            line.to_uppercase() + "\n",
        ];
        for text in others {
            assert!(told(call, &text), "{text:?}");
        }
        let refused = Err(8);
        assert!(checked::beside_rust(call, &refused).is_err());
    }
}

fn made(kind: &str, count: u64) -> Vec<Call> {
    let plan = Plan {
        count,
        kind: KINDS.iter().position(|one| one.name == kind),
        ..Plan::default()
    };
    assert!(plan.kind.is_some(), "{kind}");
    plan.calls().map(|(_, call)| call).collect()
}

fn equation(call: &Call) -> Equation {
    let mut job = Job::read(Entry::Same, &call.job).expect("a good job");
    job.equations.pop().expect("a job has an equation")
}

/// Both counts, and where the lists part.
fn judged(call: &Call) -> ([usize; 2], Option<usize>) {
    let Equation { left, right } = equation(call);
    let counts = [&left, &right].map(count);
    (counts, first_difference(&words(&left), &words(&right)))
}

#[test]
fn kinds_make_what_they_say() {
    for prefix in ["", "c-"] {
        let judged = |kind: &str| {
            let calls = made(&format!("{prefix}{kind}"), 300).into_iter();
            calls.map(|call| judged(&call)).collect::<Vec<_>>()
        };
        assert!(judged("yes").iter().all(|(_, place)| place.is_none()));
        let counts = judged("counts");
        assert!(counts.iter().all(|([left, right], _)| left != right));
        let by_one = counts
            .iter()
            .filter(|([left, right], _)| left.abs_diff(*right) == 1);
        assert!(by_one.count() > 30);
        for (kind, is_early) in [("early", true), ("late", false)] {
            for ([left, right], place) in judged(kind) {
                assert_eq!(left, right);
                assert_eq!(place.map(|place| place == 0), Some(is_early));
            }
        }
    }
}

/// The most words, lists that part at many places, and either side the one with more words.
#[test]
fn many_words_are_met() {
    let most = |kind| {
        let counts = made(kind, 300).iter().map(|call| judged(call).0[0]).max();
        counts.expect("calls")
    };
    assert_eq!(["yes", "counts", "early", "late"].map(most), [324; 4]);
    let places = made("late", 1_000).into_iter();
    let places: BTreeSet<usize> = places.flat_map(|call| judged(&call).1).collect();
    assert!(
        places.len() > 50 && places.last() > Some(&200),
        "{places:?}"
    );
    let left_has_more = |call: &Call| {
        let [left, right] = judged(call).0;
        left > right
    };
    let more = made("counts", 300)
        .iter()
        .filter(|call| left_has_more(call))
        .count();
    assert!((100..200).contains(&more), "{more}");
}

#[test]
fn few_words_are_few() {
    let mut met = BTreeSet::new();
    for call in made("few-words", 300) {
        let (mut counts, place) = judged(&call);
        counts.sort_unstable();
        met.insert((counts, place.is_none()));
    }
    let few = [
        ([0, 0], true),
        ([0, 1], false),
        ([1, 1], false),
        ([1, 1], true),
    ];
    assert!(met.is_superset(&BTreeSet::from(few)), "{met:?}");
}

/// The refusals that calls of this kind are given; 0 for an answer.
fn numbers(kind: &str) -> BTreeSet<u8> {
    let calls = made(kind, 600).into_iter();
    calls.map(|call| answer(&call).err().unwrap_or(0)).collect()
}

#[test]
fn refusals_come_from_their_kinds() {
    assert_eq!(numbers("line-room"), BTreeSet::from([0, 8]));
    assert!(numbers("same-faults").is_superset(&BTreeSet::from([0, 1, 2, 3, 4, 5, 6, 8])));
    assert!(numbers("same-lines").is_superset(&BTreeSet::from([0, 1, 2, 8])));
    assert!(numbers("c-faults").is_superset(&BTreeSet::from([0, 2, 3, 4, 5, 6, 8])));
}

/// Each room about the length of the line, with each answer.
#[test]
fn room_is_for_the_line_alone() {
    let mut rooms = BTreeSet::new();
    for call in made("line-room", 400) {
        let line = plain::answer(Entry::Same, &call.job, 0, usize::MAX).expect("a good job");
        for room in 0..=10 {
            let due = match room < line.len() {
                true => Err(8),
                false => Ok(line.clone()),
            };
            let call = Call {
                room,
                ..call.clone()
            };
            assert_eq!(answer(&call), due);
        }
        rooms.insert((line.len(), call.room));
    }
    let met = [8, 9].map(|line| [0, 7, 8, 9, 10].map(|room| (line, room)));
    assert_eq!(rooms, BTreeSet::from_iter(met.concat()));
}

/// Of jobs of every kind that is put to WORDS: where it answers, SAME answers in the same room by its first line; where
/// it refuses for another reason than room, SAME refuses for the same.
#[test]
fn jobs_of_words() {
    let plan = Plan {
        count: 4_000,
        light: true,
        ..Plan::default()
    };
    let calls = plan.calls().map(|(_, call)| call);
    let calls = calls.filter(|call| call.entry == Entry::Words);
    let (mut answered, mut refused, mut roomless) = (0, 0, 0);
    for call in calls {
        let by = |entry| plain::answer(entry, &call.job, 0, call.room);
        let (same, words) = (by(Entry::Same), by(Entry::Words));
        match words {
            Ok(text) => {
                answered += 1;
                assert!(text.starts_with(&same.expect("room enough")));
            }
            Err(8) => roomless += usize::from(same.is_ok()),
            Err(number) => {
                refused += 1;
                assert_eq!(same, Err(number));
            }
        }
    }
    let counts = [answered, refused, roomless];
    assert!(counts.iter().all(|&count| count > 5), "{counts:?}");
}
