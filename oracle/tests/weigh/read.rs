//! How a job of WEIGH is read, and in which order it is refused.

use oracle::plain::job::BOUNDS;
use oracle::plain::weigh::job::{KEYS, write};
use oracle::{Call, Entry, plain};

use super::{ONES, Values, answer, weigh};

const GOOD: Values = ["v0", "+ v0 0", "3", "7", "3", "20", ONES];

/// What the refusal is when one line of a good job holds this value.
fn with(line: usize, value: &str) -> Option<u8> {
    let mut values = GOOD;
    values[line] = value;
    answer(&weigh(values)).err()
}

/// What the refusal of a text is.
fn refused(text: &[u8]) -> Option<u8> {
    let call = Call {
        job: text.to_vec(),
        ..weigh(GOOD)
    };
    answer(&call).err()
}

const MALFORMED: [&str; 13] = [
    "", "00", "03", " 3", "3 ", "+3", "-1", "3.0", "0x3", "3\r", "3\t", "3\0", "v",
];
const TOO_LARGE: [&str; 5] = [
    "100",
    "65537",
    "4294967297",
    "18446744073709551617",
    "1000000000000000000000000000000000001",
];

#[test]
fn cost_and_limits_are_decimal_numbers() {
    for line in 2..6 {
        assert!(MALFORMED.iter().all(|value| with(line, value) == Some(1)));
        assert_eq!(with(line, "0"), None);
    }
    for (line, most) in [(3, BOUNDS[1]), (4, BOUNDS[2]), (5, BOUNDS[3])] {
        assert_eq!(with(line, &(most + 1).to_string()), Some(5));
        for value in &TOO_LARGE[1..] {
            assert_eq!(with(line, value), Some(5));
        }
    }
    for (value, due) in [
        ("98", None),
        ("99", None),
        ("100", Some(16)),
        ("101", Some(16)),
    ] {
        let [left, right, _, size, depth, _, weights] = GOOD;
        let call = weigh([left, right, value, size, depth, "4", weights]);
        assert_eq!(answer(&call).err(), due, "{value}");
    }
    assert!(TOO_LARGE.iter().all(|value| with(2, value) == Some(16)));
}

/// The line of weights with this in the place of one of them.
fn weights(at: usize, value: &str) -> String {
    let mut all: Vec<&str> = ONES.split(' ').collect();
    all[at] = value;
    all.join(" ")
}

#[test]
fn weights_are_ten_numbers_from_1_to_9() {
    for at in 0..10 {
        for value in MALFORMED {
            assert_eq!(with(6, &weights(at, value)), Some(1), "{value:?} at {at}");
        }
        for value in ["0", "10", "11", "90"].iter().chain(&TOO_LARGE) {
            assert_eq!(with(6, &weights(at, value)), Some(16), "{value:?} at {at}");
        }
        for value in ["1", "5", "9"] {
            assert_eq!(with(6, &weights(at, value)), None, "{value:?} at {at}");
        }
    }
    let nine = &ONES[2..];
    for value in [
        "",
        "1",
        nine,
        &format!("{ONES} 1"),
        &format!("{ONES} "),
        &format!(" {ONES}"),
        &ONES.replacen(' ', "  ", 1),
        &ONES.replace(' ', ","),
        &ONES.replace(' ', "\t"),
        &ONES.replace(' ', ""),
        &format!("{ONES}\r"),
        &format!("{ONES} 0"),
        &format!("{nine} "),
    ] {
        assert_eq!(with(6, value), Some(1), "{value:?}");
    }
}

#[test]
fn lines_stand_alone_and_in_order() {
    let good = write(&GOOD);
    assert_eq!(refused(&good), None);
    let lines: Vec<&[u8]> = good.split_inclusive(|&byte| byte == b'\n').collect();
    for at in 0..KEYS.len() {
        let mut doubled = lines.clone();
        doubled.insert(at, lines[at]);
        assert_eq!(refused(&doubled.concat()), Some(1));
        let mut missing = lines.clone();
        missing.remove(at);
        assert_eq!(refused(&missing.concat()), Some(1));
        let mut exchanged = lines.clone();
        exchanged.swap(at, (at + 1) % KEYS.len());
        assert_eq!(refused(&exchanged.concat()), Some(1));
    }
    assert_eq!(refused(&good[..good.len() - 1]), Some(1));
    for more in [&b"\n"[..], b" ", b"\0", b"x"] {
        assert_eq!(refused(&[&good[..], more].concat()), Some(1));
        assert_eq!(refused(&[more, &good[..]].concat()), Some(1));
    }
    let text = String::from_utf8(good).expect("it is ASCII");
    for (old, new) in [
        ("cost=", "steps="),
        ("cost=3\n", "steps=3\ncost=3\n"),
        ("cost=3\n", "cost=3\nsteps=3\n"),
        ("cost=", "Cost="),
        ("weights=", "weight="),
        ("weights=", "weights= "),
        ("right=", "right=v1\nright="),
    ] {
        assert_eq!(refused(text.replace(old, new).as_bytes()), Some(1), "{new}");
    }
}

/// A job of WEIGH is none of the other entries', and theirs is none of WEIGH's.
#[test]
fn jobs_of_others() {
    let own = write(&GOOD);
    for entry in Entry::OF_JOBS {
        assert_eq!(plain::answer(entry, &own, 400, 1_000), Err(1));
    }
    let others = oracle::plain::job::write(&GOOD[..6]);
    assert_eq!(refused(&others), Some(1));
}

#[test]
fn length_counts_the_whole_text() {
    let bytes = write(&GOOD).len();
    let filled = |line: usize, length: usize| {
        let value = format!("{}{}", GOOD[line], "9".repeat(length - bytes));
        with(line, &value)
    };
    for (line, number) in [(0, 2), (2, 16), (5, 5), (6, 16)] {
        assert_eq!(filled(line, 1_024), Some(number));
        assert_eq!(filled(line, 1_025), Some(1));
        assert_eq!(filled(line, 70_000), Some(1));
    }
}

/// Several reasons: 1, 2, 3, 4, 5, 16, 6, 7, 8.
#[test]
fn the_first_reason_counts() {
    let nodes_33 = format!("{}v0", "+ v0 ".repeat(16));
    let seven = "+ v0 + v1 + v2 + v3 + v4 + v5 v6";
    let heavy = weights(9, "0");
    let jobs = [
        (1, ["v", "2", "100", "99", "0", "0", "1"]),
        (1, [&nodes_33, "2", "03", "99", "0", "0", &heavy]),
        (2, [&nodes_33, "2", "100", "99", "0", "0", &heavy]),
        (3, [&nodes_33, seven, "100", "99", "0", "0", &heavy]),
        (4, [seven, seven, "100", "99", "0", "0", &heavy]),
        (5, ["v0", "v0", "100", "32", "0", "0", &heavy]),
        (5, ["v0", "v0", "100", "31", "16", "0", &heavy]),
        (5, ["v0", "v0", "100", "31", "15", "4097", &heavy]),
        (16, ["v0", "v0", "100", "31", "15", "4096", ONES]),
        (16, ["v0", "v0", "99", "31", "15", "4096", &heavy]),
        (6, ["v0", "v0", "99", "31", "15", "4096", ONES]),
    ];
    for (number, values) in jobs {
        let call = Call {
            slots: 0,
            room: 0,
            ..weigh(values)
        };
        assert_eq!(answer(&call), Err(number), "{values:?}");
    }
    let good = weigh(["v0", "v1", "0", "7", "3", "0", ONES]);
    let with = |slots, room| {
        let call = Call {
            slots,
            room,
            ..good.clone()
        };
        answer(&call).err()
    };
    assert_eq!(
        [with(0, 0), with(1, 0), with(1, 100)],
        [Some(7), Some(8), None]
    );
}
