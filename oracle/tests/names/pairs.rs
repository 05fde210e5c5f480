//! Generated pairs: both implementations print what the judge has due, and every kind makes what it says.

use std::collections::BTreeSet;

use oracle::checked;
use oracle::generate::{Names, PAIR_KINDS};
use oracle::names::{Related, hold};
use oracle::plain::job::{MOST_LETTERS, MOST_NODES};
use oracle::plain::term::letters_of;

/// How the pairs are related, with their kinds.
fn related(names: &Names) -> Vec<(&'static str, Related)> {
    let held = names.indices().map(|index| {
        let pair = names.pair(index);
        let name = PAIR_KINDS[pair.kind].name;
        let related = hold(&pair, |call| {
            checked::answer(call).map_err(|difference| difference.to_string())
        });
        let related = related.unwrap_or_else(|found| panic!("kind={name}\n{found}"));
        (name, related)
    });
    held.collect()
}

#[test]
fn kinds_make_what_they_say() {
    hold_kinds(false);
}

#[test]
fn kinds_with_c_letters_make_what_they_say() {
    hold_kinds(true);
}

fn hold_kinds(has_c: bool) {
    let all = related(&Names {
        seed: 31,
        count: 2_500,
        has_c,
        ..Names::default()
    });
    let mut kinds = BTreeSet::new();
    for (name, related) in &all {
        let Related {
            sides,
            lists,
            agree,
        } = related;
        kinds.insert(name);
        assert!(match *name {
            "renamed" => sides.as_is,
            "exchanged" | "turned" => sides.exchanged,
            "merged" | "other-table" | "freed" => !sides.either(),
            "rewritten" | "led-on" => agree[0] == agree[1] && lists.either(),
            "agreed" => *agree == [true; 2],
            _ => true,
        });
    }
    let drawn = PAIR_KINDS
        .iter()
        .filter(|kind| kind.shares[usize::from(has_c)] > 0);
    assert_eq!(kinds.len(), drawn.count());
    let has = |name: &str, is_meant: fn(&Related) -> bool| {
        let mut of_kind = all.iter().filter(|(other, _)| *other == name);
        assert!(of_kind.any(|(_, related)| is_meant(related)), "{name}");
    };
    for name in ["one-place", "crossed", "half", "small", "symmetric"] {
        has(name, |related| related.sides.either());
        has(name, |related| !related.sides.either());
        has(name, |related| !related.lists.either());
        has(name, |related| {
            related.lists.either() && !related.sides.either()
        });
    }
    has("symmetric", |related| {
        related.sides.as_is && related.sides.exchanged
    });
    has("unrelated", |related| related.agree[0] != related.agree[1]);
}

#[test]
fn shares_make_a_thousand() {
    for at in 0..2 {
        let shares = PAIR_KINDS.iter().map(|kind| kind.shares[at]);
        assert_eq!(shares.sum::<usize>(), 1_000);
    }
}

#[test]
fn pairs_go_up_to_six_letters_and_31_nodes() {
    let names = Names::default();
    let (mut letters, mut nodes) = (BTreeSet::new(), BTreeSet::new());
    for [left, right] in names.indices().flat_map(|index| names.pair(index).sides) {
        letters.insert(letters_of(&left, &right).len());
        nodes.extend([left.size(), right.size()]);
    }
    assert!(letters.into_iter().eq(0..=MOST_LETTERS));
    assert!(nodes.into_iter().eq((1..=MOST_NODES).step_by(2)));
}

#[test]
fn pairs_are_the_same_for_a_seed() {
    let written = |seed, index| {
        let names = Names {
            seed,
            ..Names::default()
        };
        let pair = names.pair(index);
        [pair.jobs().concat(), pair.third_job(["v0", "v1"])].concat()
    };
    assert_eq!(written(5, 0), written(5, 0));
    assert_ne!(written(5, 0), written(6, 0));
    assert_ne!(written(5, 0), written(5, 1));
}
