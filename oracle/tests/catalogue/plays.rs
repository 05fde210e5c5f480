//! Plays: both implementations agree on them, and every kind makes what it says.

use std::collections::{BTreeMap, BTreeSet};

use oracle::Ask;
use oracle::generate::{PLAY_KINDS, Plays};
use oracle::list;
use oracle::plain::catalogue::returned;
use oracle::play::play;

/// The numbers that each kind returned, 100 standing for every accepted call.
fn numbers(plays: &Plays) -> BTreeMap<&'static str, BTreeSet<usize>> {
    let mut met: BTreeMap<_, BTreeSet<usize>> = BTreeMap::new();
    for index in 0..plays.count {
        let made = play(plays, index, false, |played| {
            let name = played
                .kind
                .map_or("read back", |kind| PLAY_KINDS[kind].name);
            let number = returned(played.kept).min(100);
            met.entry(name).or_default().insert(number);
            Ok(())
        });
        made.unwrap_or_else(|found| panic!("{found}"));
    }
    met
}

#[test]
fn kinds_give_what_they_say() {
    let met = numbers(&Plays {
        count: 12,
        ..Plays::default()
    });
    let is = |name: &str, due: &[usize]| {
        assert_eq!(
            met[name],
            BTreeSet::from_iter(due.iter().copied()),
            "{name}"
        );
    };
    let has = |name: &str, due: &[usize]| {
        let due = BTreeSet::from_iter(due.iter().copied());
        assert!(met[name].is_superset(&due), "{name}: {:?}", met[name]);
    };
    for name in ["fresh", "again", "renamed", "other-key", "agreed", "alike"] {
        is(name, &[15, 100]);
    }
    has("large", &[100]);
    has("listed", &[13]);
    has("put-number", &[1, 13, 100]);
    is("put-key", &[1]);
    has("put-lines", &[1]);
    is("put-sides", &[2]);
    has("put-nodes", &[2, 3, 13, 100]);
    has("put-letters", &[4, 13, 100]);
    has("put-limits", &[5, 13, 100]);
    is("put-equal", &[5, 6]);
    has("put-faults", &[1, 2, 3, 4, 5, 6]);
    is("put-bytes", &[1, 2, 3]);
    has("put-damage", &[1, 2, 13, 100]);
    for name in ["held", "last", "one-of"] {
        is(name, &[14, 100]);
    }
    is("unlisted", &[14]);
    has("no-number", &[1]);
    is("buffers", &[99]);
    is("read back", &[14, 100]);
}

#[test]
fn shares_make_a_thousand_in_each_phase() {
    for phase in 0..3 {
        let shares = PLAY_KINDS.iter().map(|kind| kind.shares[phase]);
        assert_eq!(shares.sum::<usize>(), 1_000);
    }
}

/// A short play as the replay has it: every refusal but 99, full more than once with few between, nothing left.
#[test]
fn a_short_play_has_it_all() {
    let plays = Plays {
        seed: 61,
        count: 1,
        calls: 600,
        is_short: true,
        ..Plays::default()
    };
    let (mut met, mut bytes) = (BTreeSet::new(), Vec::new());
    let (mut fills, mut is_low, mut left) = (0, true, 1);
    let made = play(&plays, 0, false, |played| {
        let number = returned(played.kept);
        met.insert((played.sent.ask == Ask::Put, number.min(100)));
        list::write_returned(&mut bytes, played.sent, number).unwrap();
        left = played.catalogue.held().len();
        if is_low && left == 64 {
            fills += 1;
        }
        is_low = left < 16 || (is_low && left < 64);
        Ok(())
    });
    made.unwrap_or_else(|found| panic!("{found}"));
    let puts = [1, 2, 3, 4, 5, 6, 13, 15, 100].map(|number| (true, number));
    let withdrawals = [1, 14, 100].map(|number| (false, number));
    let due = BTreeSet::from_iter(puts.into_iter().chain(withdrawals));
    assert_eq!(met, due);
    assert!(fills >= 2, "full {fills} times");
    assert_eq!(left, 0);
    assert!(bytes.len() < 80_000, "{} bytes", bytes.len());
}

#[test]
fn plays_are_the_same_for_a_seed() {
    let written = |seed, index| {
        let plays = Plays {
            seed,
            calls: 150,
            is_short: true,
            ..Plays::default()
        };
        let mut bytes = Vec::new();
        let made = play(&plays, index, true, |played| {
            list::write_returned(&mut bytes, played.sent, returned(played.kept)).unwrap();
            Ok(())
        });
        made.unwrap();
        bytes
    };
    assert_eq!(written(5, 0), written(5, 0));
    assert_ne!(written(5, 0), written(6, 0));
    assert_ne!(written(5, 0), written(5, 1));
}
