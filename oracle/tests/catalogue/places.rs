//! Places: which one a put takes, how many there are, and what refused calls leave.

use oracle::checked::Judged;
use oracle::{Ask, CATALOGUE, Sent};

use super::{A, LIMITS, call, put_as, take_out, text};

/// The numbers by place.
fn numbers(judged: &Judged) -> Vec<Option<u32>> {
    (0..64)
        .map(|place| judged.plain.at(place).map(|held| held.number))
        .collect()
}

#[test]
fn a_put_takes_the_first_free_place() {
    let mut judged = Judged::new(false);
    for number in 1..=64 {
        put_as(&mut judged, number, "raw", A);
    }
    let all: Vec<Option<u32>> = (1..=64).map(Some).collect();
    assert_eq!(numbers(&judged), all);
    for number in [40, 3, 64, 17] {
        take_out(&mut judged, number);
    }
    for number in [903, 917, 940, 964] {
        put_as(&mut judged, number, "words", A);
    }
    let mut due = all;
    for number in [3, 17, 40, 64] {
        due[number - 1] = Some(900 + number as u32);
    }
    assert_eq!(numbers(&judged), due);
}

#[test]
fn sixty_four_are_listed_at_most() {
    let mut judged = Judged::new(false);
    for number in 1..=64 {
        assert_eq!(put_as(&mut judged, number, "raw", A), 101);
    }
    assert_eq!(put_as(&mut judged, 65, "raw", A), 15);
    assert_eq!(put_as(&mut judged, 64, "raw", A), 13);
    assert_eq!(take_out(&mut judged, 65), 14);
    assert_eq!(take_out(&mut judged, 1), 101);
    assert_eq!(take_out(&mut judged, 1), 14);
    assert_eq!(put_as(&mut judged, 65, "words", A), 102);
    assert_eq!(put_as(&mut judged, 1, "raw", A), 15);
}

#[test]
fn a_refused_call_changes_nothing() {
    let mut judged = Judged::new(false);
    for number in 1..=64 {
        put_as(&mut judged, number, "raw", A);
    }
    let before = numbers(&judged);
    let puts = [
        text("1", "words", ["v0", "v1"], LIMITS),
        text("70", "words", ["v0", "v1"], LIMITS),
        text("70", "word", ["v0", "v1"], LIMITS),
        text("70", "words", ["v0", "v0"], LIMITS),
    ];
    for text in puts {
        assert!(call(&mut judged, &Sent::new(Ask::Put, text)) < 100);
    }
    assert_eq!(take_out(&mut judged, 70), 14);
    assert_eq!(numbers(&judged), before);
    assert_eq!(judged.plain.kinds(), 1);
}

/// A buffer of another length is answered by 99 before anything else, and the catalogue stays as it is.
#[test]
fn another_length_is_refused_first() {
    let mut judged = Judged::new(false);
    put_as(&mut judged, 1, "raw", A);
    let good = text("2", "raw", A, LIMITS);
    let calls = [
        Sent::new(Ask::Put, good),
        Sent::new(Ask::Put, ""),
        Sent::new(Ask::Withdraw, "number=1\n"),
        Sent::new(Ask::Withdraw, "number=2\n"),
        Sent::new(Ask::Withdraw, ""),
    ];
    for numbers in [0, 1, CATALOGUE - 1, CATALOGUE + 1] {
        for sent in &calls {
            let sent = Sent {
                numbers,
                ..sent.clone()
            };
            assert_eq!(call(&mut judged, &sent), 99);
        }
    }
    assert_eq!(take_out(&mut judged, 1), 100);
}
