//! Calls, plays and pairs with c letters have them, and every kind makes what it says.

use std::collections::BTreeSet;

use oracle::generate::{KINDS, Names, Plan, Plays};
use oracle::plain::job::{Equation, Job, MOST_LETTERS};
use oracle::plain::term::{is_c, letters_of, v_letters_of};
use oracle::plain::words::words;
use oracle::play::play;
use oracle::{Call, Entry, Given, checked};

fn made(name: &str, count: u64) -> Vec<(Call, Given)> {
    let kind = KINDS.iter().position(|kind| kind.name == name);
    let plan = Plan {
        count,
        kind: Some(kind.expect("a kind")),
        ..Plan::default()
    };
    let calls = plan.calls().map(|(_, call)| {
        let given = checked::answer(&call);
        let given = given.unwrap_or_else(|found| panic!("kind={name}\n{found}"));
        (call, given)
    });
    calls.collect()
}

/// The refusals that calls of this kind are given; 0 for an answer.
fn numbers(name: &str) -> BTreeSet<u8> {
    let made = made(name, 400).into_iter();
    made.map(|(_, given)| given.err().unwrap_or(0)).collect()
}

/// Whether a text has a c letter, or what might be taken for one.
fn has_c(text: &[u8]) -> bool {
    text.windows(2)
        .any(|pair| matches!(pair, [b' ' | b'=', b'c']))
}

#[test]
fn kinds_have_c_letters_and_the_others_do_not() {
    for (at, kind) in KINDS
        .iter()
        .enumerate()
        .filter(|(_, kind)| !kind.is_heavy())
    {
        let plan = Plan {
            count: 100,
            kind: Some(at),
            ..Plan::default()
        };
        let count = plan.calls().filter(|(_, call)| has_c(&call.job)).count();
        match kind.has_c {
            true => assert!(count > 40, "{}: {count}", kind.name),
            // damage may make a c of another byte
            false => assert!(count < 5, "{}: {count}", kind.name),
        }
    }
}

#[test]
fn refusals_come_from_their_kinds() {
    assert_eq!(numbers("c-sides"), BTreeSet::from([2]));
    assert!(numbers("c-letters").is_superset(&BTreeSet::from([0, 3, 4])));
    assert!(numbers("c-most").is_superset(&BTreeSet::from([0, 4])));
    assert!(numbers("c-several").is_superset(&BTreeSet::from([1, 2, 3, 4, 5, 6])));
    assert!(numbers("c-slots").is_superset(&BTreeSet::from([0, 7])));
    assert!(numbers("c-room").is_superset(&BTreeSet::from([0, 8])));
    assert!(numbers("c-each-six").is_superset(&BTreeSet::from([0, 4])));
    assert!(numbers("c-one-wrong").is_superset(&BTreeSet::from([2, 3, 4, 6, 10])));
    assert!(numbers("c-bent").is_superset(&BTreeSet::from([0, 12])));
    assert!(numbers("c-names").is_superset(&BTreeSet::from([0, 4, 11, 12])));
    assert!(numbers("c-terms").is_superset(&BTreeSet::from([2])));
}

/// Up to 32 letters in an equation, and up to sixteen in a proof.
#[test]
fn the_most_letters_are_met() {
    let (mut letters, mut named) = (0, 0);
    for (call, given) in made("c-most", 400) {
        let Ok(job) = Job::read(call.entry, &call.job) else {
            continue;
        };
        let equation = &job.equations[0];
        let all = letters_of(&equation.left, &equation.right).len();
        letters = letters.max(all);
        let text = String::from_utf8(given.unwrap_or_default()).expect("answers are ASCII");
        named = named.max(text.matches("(lam x").count());
    }
    assert_eq!((letters, named), (32, 16));
}

/// All renamings of six v letters are tried on lists that are long and have c letters.
#[test]
fn many_words_have_six_v_letters_beside_c_letters() {
    let is_meant = |job: &Job| {
        let Equation { left, right } = &job.equations[0];
        let is_long = |side| words(side).len() >= 100;
        let has_c = letters_of(left, right).into_iter().any(is_c);
        has_c && v_letters_of(left, right).len() == MOST_LETTERS && is_long(left) && is_long(right)
    };
    for entry in [Entry::Words, Entry::Rename] {
        let made = made("c-words", 200).into_iter();
        let jobs = made.filter(|(call, _)| call.entry == entry);
        let jobs = jobs.flat_map(|(call, _)| Job::read(entry, &call.job));
        assert!(jobs.filter(is_meant).count() > 0, "{}", entry.name());
    }
}

#[test]
fn pairs_have_six_v_letters_beside_c_letters() {
    let names = Names {
        has_c: true,
        ..Names::default()
    };
    let (mut with_c, mut most) = (0, 0);
    for [left, right] in names.indices().flat_map(|index| names.pair(index).sides) {
        let count = letters_of(&left, &right)
            .into_iter()
            .filter(|&letter| is_c(letter))
            .count();
        with_c += usize::from(count > 0);
        if v_letters_of(&left, &right).len() == MOST_LETTERS {
            most = most.max(count);
        }
    }
    assert!(with_c > 1_400 && most > 1, "{with_c} {most}");
}

#[test]
fn plays_have_c_letters() {
    let plays = Plays {
        has_c: true,
        ..Plays::default()
    };
    let (mut accepted, mut with_c) = (0, 0);
    for index in 0..2 {
        let made = play(&plays, index, false, |played| {
            accepted += usize::from(played.kept.is_ok() && played.kind.is_some());
            with_c += usize::from(played.kept.is_ok() && has_c(&played.sent.text));
            Ok(())
        });
        made.unwrap_or_else(|found| panic!("{found}"));
    }
    assert!(with_c > 100 && with_c < accepted, "{with_c} of {accepted}");
}
