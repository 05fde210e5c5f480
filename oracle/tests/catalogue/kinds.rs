//! Which entries are of one kind.

use oracle::checked::Judged;
use oracle::generate::{Plan, Random};
use oracle::plain::{self, catalogue::Put};
use oracle::{Entry, Sent};

use super::{call, put, put_as, take_out};

/// The lines of RENAME that a key means.
fn lines(key: &str, job: &[u8]) -> Vec<String> {
    let (answer, _) = plain::whole(Entry::Rename, job).expect("a good job");
    let answer = String::from_utf8(answer).expect("answers are ASCII");
    let lines = answer.lines().map(str::to_owned);
    match key {
        "raw" => lines.take(2).collect(),
        _ => lines.skip(2).collect(),
    }
}

/// Two entries are of one kind exactly if key and RENAME's lines agree.
#[test]
fn kinds_go_by_key_and_lines() {
    let names = ["laws", "pairs", "paths", "renames"];
    let kinds = names.map(|name| {
        oracle::generate::KINDS
            .iter()
            .position(|kind| kind.name == name)
    });
    let mut jobs: Vec<Vec<u8>> = Vec::new();
    for kind in kinds {
        let plan = Plan {
            count: 25,
            kind,
            ..Plan::default()
        };
        jobs.extend(plan.calls().map(|(_, call)| call.job));
    }
    let mut random = Random::new(5, 0);
    let mut met = [0; 2];
    for _ in 0..2_000 {
        let pair = [(); 2].map(|()| {
            let key = random.pick(&["raw", "words"]);
            let job = random.pick(&jobs);
            (key, lines(key, &job), job)
        });
        let mut judged = Judged::new(true);
        let mut count = 0;
        for (number, (key, _, job)) in pair.iter().enumerate() {
            let head = format!("number={}\nkey={key}\n", number + 1);
            count = put(&mut judged, &[head.as_bytes(), job].concat());
        }
        let is_one = pair[0].0 == pair[1].0 && pair[0].1 == pair[1].1;
        assert_eq!(count, if is_one { 101 } else { 102 });
        met[usize::from(is_one)] += 1;
    }
    assert!(met.iter().all(|&count| count > 50), "{met:?}");
}

#[test]
fn entries_whose_words_agree_are_one_kind_under_words() {
    let mut judged = Judged::new(false);
    let sides = [
        ["v0", "+ v0 0"],
        ["v9", "* 1 v9"],
        ["+ v0 v1", "+ v1 v0"],
        ["0", "* 0 + v1 + v2 + v3 + v4 + v5 v6"],
        ["* v0 + v1 v2", "+ * v0 v1 * v0 v2"],
    ];
    for (number, sides) in sides.into_iter().enumerate() {
        assert_eq!(put_as(&mut judged, 1 + number, "words", sides), 101);
    }
    // no other kind has lines of this sort, also under the other key
    assert_eq!(put_as(&mut judged, 10, "words", ["v0", "v1"]), 102);
    for (number, sides) in sides.into_iter().enumerate() {
        assert_eq!(
            put_as(&mut judged, 101 + number, "raw", sides),
            103 + number
        );
    }
    for number in 1..=4 {
        assert_eq!(take_out(&mut judged, number), 107);
    }
    assert_eq!(take_out(&mut judged, 5), 106);
}

/// The limits are no part of a kind.
#[test]
fn limits_make_no_kind() {
    let mut judged = Judged::new(false);
    for (number, limits) in [["0"; 4], ["16", "31", "15", "4096"], ["1", "2", "3", "4"]]
        .into_iter()
        .enumerate()
    {
        let text = super::text(&(1 + number).to_string(), "raw", ["v0", "v1"], limits);
        assert_eq!(put(&mut judged, &text), 101);
    }
}

/// The count after each call of a play equals one that takes the equations held from the texts of the calls.
#[test]
fn the_count_is_that_of_the_equations_put_and_not_withdrawn() {
    let plays = oracle::generate::Plays {
        seed: 77,
        calls: 400,
        is_short: true,
        ..Default::default()
    };
    let mut player = plays.player(0);
    let mut judged = Judged::new(true);
    let mut held: Vec<(u32, &str, Vec<String>)> = Vec::new();
    for _ in 0..plays.calls {
        let (_, sent) = player.draw(&judged.plain);
        let number = call(&mut judged, &sent);
        if number >= 100 {
            follow(&mut held, &sent);
            let mut kinds: Vec<_> = held.iter().map(|(_, key, lines)| (key, lines)).collect();
            kinds.sort();
            kinds.dedup();
            assert_eq!(number, 100 + kinds.len());
        }
    }
    assert!(held.len() > 5);
}

/// Does to a plain list what an accepted call does.
fn follow(held: &mut Vec<(u32, &'static str, Vec<String>)>, sent: &Sent) {
    match Put::read(&sent.text) {
        Ok(put) => {
            let from = sent.text.iter().enumerate();
            let mut ends = from.filter(|&(_, &byte)| byte == b'\n').map(|(at, _)| at);
            let job = &sent.text[ends.nth(1).expect("two lines") + 1..];
            let key = put.key.name();
            held.push((put.number, key, lines(key, job)));
        }
        Err(_) => {
            let text = String::from_utf8(sent.text.clone()).expect("a good withdrawal");
            let number = text.trim_start_matches("number=").trim_end();
            let number: u32 = number.parse().expect("a number");
            held.retain(|(other, ..)| *other != number);
        }
    }
}
