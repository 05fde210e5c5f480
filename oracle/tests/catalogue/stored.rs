//! The layout in numbers.

use oracle::CATALOGUE;
use oracle::checked::Judged;
use oracle::generate::Plays;
use oracle::plain::catalogue::{Held, PLACES};
use oracle::plain::stored::{COUNT, LEFT, PLACE, RIGHT, front, lists};

use super::put_as;

/// The most numbers that a list may have.
const ROOM: usize = RIGHT - LEFT;

fn stored(key: &str, sides: [&str; 2]) -> Held {
    let mut judged = Judged::new(false);
    assert_eq!(put_as(&mut judged, 7, key, sides), 101);
    judged.plain.at(0).expect("the first place").clone()
}

#[test]
fn places_and_the_count_make_the_buffer() {
    assert_eq!((PLACES, PLACE, LEFT, RIGHT), (64, 5_408, 8, 2_708));
    assert_eq!(COUNT + 1, CATALOGUE);
    assert_eq!(RIGHT + ROOM, PLACE);
}

#[test]
fn a_raw_entry_holds_the_runs_of_its_sides() {
    let held = stored("raw", ["* v5 v2", "+ 0 1"]);
    assert_eq!(front(&held), [7, 0, 3, 3, 0, 0, 0, 0]);
    assert_eq!(lists(&held), [vec![4_098, 4_096, 4_097], vec![4_099, 0, 1]]);
}

#[test]
fn a_word_entry_holds_its_words_spelled() {
    let held = stored("words", ["* + v5 1 + v2 0", "+ 1 1"]);
    assert_eq!(front(&held), [7, 1, 2, 5, 0, 0, 0, 0]);
    // the lists are 1;1 and v0;v1 v0
    assert_eq!(lists(&held), [vec![0, 0], vec![1, 0, 2, 1, 0]]);
}

/// cn is 1000 + n in a run, and one more in a word.
#[test]
fn c_letters_have_numbers_of_their_own() {
    let raw = stored("raw", ["* c0 v5", "c99"]);
    assert_eq!(lists(&raw), [vec![1_099], vec![4_099, 1_000, 0]]);
    let words = stored("words", ["* c0 v5", "c99"]);
    assert_eq!(lists(&words), [vec![1_001, 1, 0], vec![1_100, 0]]);
}

#[test]
fn agreed_words_and_no_words_are_told_apart() {
    let agreed = stored("words", ["v0", "+ v0 0"]);
    assert_eq!(front(&agreed), [7, 1, 0, 0, 0, 0, 0, 0]);
    let none = stored("words", ["* 0 v1", "1"]);
    assert_eq!(lists(&none), [vec![], vec![0]]);
}

/// Under one key, lines agree exactly where both lists of numbers do; and the lists fit.
#[test]
fn lists_tell_kinds_apart() {
    let mut met = [0; 2];
    for index in 0..3 {
        let plays = Plays {
            seed: 21,
            ..Plays::default()
        };
        let mut player = plays.player(index);
        let mut judged = Judged::new(true);
        for _ in 0..250 {
            let (_, sent) = player.draw(&judged.plain);
            super::call(&mut judged, &sent);
        }
        let held = judged.plain.held();
        for one in &held {
            assert!(lists(one).iter().all(|list| list.len() <= ROOM));
            for other in held.iter().filter(|other| other.key == one.key) {
                let is_one = lists(one) == lists(other);
                assert_eq!(is_one, one.lines == other.lines);
                met[usize::from(is_one)] += 1;
            }
        }
    }
    assert!(met.iter().all(|&count| count > 100), "{met:?}");
}

/// The longest lists: 256 words of eight letters.
#[test]
fn the_longest_lists_fit() {
    let side = "* + v0 v1 ".repeat(7) + "+ v0 v1";
    let held = stored("words", [&side, "0"]);
    assert_eq!(lists(&held).map(|list| list.len()), [0, 2_304]);
}
