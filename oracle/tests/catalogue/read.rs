//! What puts and withdrawals say, and what is refused by 1 to 6.

use oracle::checked::Judged;
use oracle::plain::job::BOUNDS;

use super::{A, LIMITS, put, text, withdraw};

/// What a put returns on an empty catalogue.
fn alone(text: &[u8]) -> usize {
    put(&mut Judged::new(false), text)
}

/// A withdrawal where 1, 7 and 999 are listed.
fn withdrawn(text: &[u8]) -> usize {
    let mut judged = Judged::new(false);
    for number in [1, 7, 999] {
        assert_eq!(super::put_as(&mut judged, number, "raw", A), 101);
    }
    withdraw(&mut judged, text)
}

#[test]
fn numbers_are_written_as_limits_and_go_from_1_to_999() {
    let with = |number: &str| alone(&text(number, "raw", A, LIMITS));
    let line = |number: &str| withdrawn(format!("number={number}\n").as_bytes());
    for number in ["1", "7", "999"] {
        assert_eq!(with(number), 101, "{number}");
        assert_eq!(line(number), 101, "{number}");
    }
    for number in ["2", "10", "998"] {
        assert_eq!(with(number), 101, "{number}");
        assert_eq!(line(number), 14, "{number}");
    }
    let none = [
        "",
        "0",
        "00",
        "01",
        "007",
        "0999",
        "1000",
        "65543",
        "4294967303",
        "18446744073709551623",
        " 7",
        "7 ",
        "+7",
        "-7",
        "7.0",
        "7\r",
        "7\0",
        "v7",
        "seven",
    ];
    for number in none {
        assert_eq!(with(number), 1, "{number:?}");
        assert_eq!(line(number), 1, "{number:?}");
    }
}

#[test]
fn a_key_is_raw_or_words() {
    let with = |key: &str| alone(&text("7", key, A, LIMITS));
    assert_eq!(with("raw"), 101);
    assert_eq!(with("words"), 101);
    for key in [
        "", "Raw", "raws", "ra", " raw", "raw ", "raw\r", "word", "WORDS", "rawwords", "sets", "0",
    ] {
        assert_eq!(with(key), 1, "{key:?}");
    }
}

#[test]
fn lines_stand_alone_and_in_order() {
    let good = text("7", "raw", A, LIMITS);
    let lines: Vec<&[u8]> = good.split_inclusive(|&byte| byte == b'\n').collect();
    assert_eq!(lines.len(), 8);
    for at in 0..8 {
        let mut doubled = lines.clone();
        doubled.insert(at, lines[at]);
        assert_eq!(alone(&doubled.concat()), 1);
        let mut missing = lines.clone();
        missing.remove(at);
        assert_eq!(alone(&missing.concat()), 1);
        let mut exchanged = lines.clone();
        exchanged.swap(at, (at + 1) % 8);
        assert_eq!(alone(&exchanged.concat()), 1);
        assert_eq!(alone(&lines[..at].concat()), 1);
    }
    assert_eq!(alone(&good[..good.len() - 1]), 1);
    for more in [&b"\n"[..], b" ", b"\0", b"x", b"laws=sets\n"] {
        assert_eq!(alone(&[&good[..], more].concat()), 1);
        assert_eq!(alone(&[more, &good[..]].concat()), 1);
        assert_eq!(withdrawn(&[b"number=7\n", more].concat()), 1);
        assert_eq!(withdrawn(&[more, b"number=7\n"].concat()), 1);
    }
    for text in [&b""[..], b"number=7", b"number=\n", b"7\n", b"number=7\r\n"] {
        assert_eq!(withdrawn(text), 1);
    }
    assert_eq!(withdrawn(&good), 1);
    assert_eq!(alone(b"number=7\n"), 1);
}

#[test]
fn length_counts_the_whole_text() {
    let bytes = text("7", "raw", ["", "v0"], LIMITS).len();
    let of_length = |length: usize| {
        let left = "0".repeat(length - bytes);
        alone(&text("7", "raw", [&left, "v0"], LIMITS))
    };
    assert_eq!(of_length(1_023), 2);
    assert_eq!(of_length(1_024), 2);
    assert_eq!(of_length(1_025), 1);
    assert_eq!(of_length(70_000), 1);
}

/// The limits are looked at, though nothing is searched.
#[test]
fn limits_have_their_bounds() {
    for limit in 0..4 {
        let with = |value: &str| {
            let mut limits = LIMITS;
            limits[limit] = value;
            alone(&text("7", "words", A, limits))
        };
        let most = BOUNDS[limit];
        assert_eq!(with("0"), 101);
        assert_eq!(with(&most.to_string()), 101);
        assert_eq!(with(&(most + 1).to_string()), 5);
        assert_eq!(with("4294967296"), 5);
        assert_eq!(with("03"), 1);
    }
}

/// A put with every reason to refuse, which are then taken away one by one; number, key, lines and the digits of
/// limits are all judged before any term is.
#[test]
fn refusals_come_in_order() {
    let mut judged = Judged::new(false);
    for number in 1..=64 {
        assert_eq!(super::put_as(&mut judged, number, "raw", A), 101);
    }
    let nodes_33 = format!("{}v0", "+ v0 ".repeat(16));
    let seven = "+ v1 + v2 + v3 + v4 + v5 + v6 v7";
    let over = ["17", "7", "3", "1000"];
    let texts = [
        (1, text("0", "raw", ["+ v0", &nodes_33], over)),
        (1, text("1", "Raw", ["+ v0", &nodes_33], over)),
        (
            1,
            text("1", "raw", ["+ v0", &nodes_33], ["3", "7", "3", "01"]),
        ),
        (2, text("1", "raw", ["+ v0", &nodes_33], over)),
        (3, text("1", "raw", [seven, &nodes_33], over)),
        (4, text("1", "raw", [seven, seven], over)),
        (5, text("1", "raw", ["v0", "v0"], over)),
        (6, text("1", "raw", ["v0", "v0"], LIMITS)),
        (13, text("1", "raw", A, LIMITS)),
        (15, text("65", "raw", A, LIMITS)),
    ];
    for (number, text) in &texts {
        assert_eq!(put(&mut judged, text), *number);
    }
    assert_eq!(judged.plain.held().len(), 64);
}
