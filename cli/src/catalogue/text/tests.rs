//! Held to the entries: the fault that is found is one of the number that they give.

use puvainy::CATALOGUE;

use super::*;
use crate::refusals::{CHANGES, JOBS, Row};

const PUT: &str =
    "number=7\nkey=raw\nleft=+ * v0 v1 0\nright=* v0 v1\nsteps=3\nsize=9\ndepth=4\nnodes=1000\n";

/// Puts that a small damage makes one of too many v letters, of equal sides, over a bound, or under a number out of range.
const PUTS: [&str; 5] = [
    PUT,
    "number=98\nkey=raw\nleft=+ v0 + v1 + v2 v3\nright=+ c9 + c99 + v4 v5\nsteps=3\nsize=9\ndepth=4\nnodes=10\n",
    "number=99\nkey=words\nleft=+ v0 + v1 + v2 v3\nright=+ v0 + v1 + v4 v5\nsteps=3\nsize=9\ndepth=4\nnodes=10\n",
    "number=999\nkey=raw\nleft=v0\nright=v1\nsteps=3\nsize=9\ndepth=4\nnodes=1000\n",
    "number=1\nkey=words\nleft=v0\nright=1\nsteps=16\nsize=31\ndepth=15\nnodes=4096\n",
];

/// A fault, what is put in the place of what to make it, and where it is told.
type Case = (Fault, &'static str, &'static str, &'static str);

const OF_PUT: [Case; 28] = [
    (Fault::Mark, "number", "\u{feff}number", "the whole text"),
    (Fault::Windows, "raw\n", "raw\r\n", "line 2"),
    (Fault::Windows, "3\n", "3\r\n", "line 5"),
    (Fault::Missing, PUT, "", "line 1 (number)"),
    (Fault::Missing, PUT, "number=7\n", "line 2 (key)"),
    (Fault::Missing, PUT, "number=7\nkey=raw\n", "line 3 (left)"),
    (Fault::Missing, "nodes=1000\n", "", "line 8 (nodes)"),
    (Fault::Key, "number=7\n", "", "line 1 (number)"),
    (Fault::Key, "key=raw\n", "", "line 2 (key)"),
    (Fault::Key, "size", "Size", "line 6 (size)"),
    (Fault::End, PUT, "number=7", "line 1 (number)"),
    (Fault::End, PUT, "number=7\nkey=raw", "line 2 (key)"),
    (Fault::End, "1000\n", "1000", "line 8 (nodes)"),
    (Fault::Number, "=7", "=0", "line 1 (number), 0"),
    (Fault::Number, "=7", "=1000", "line 1 (number), 1000"),
    (Fault::Number, "=7", "=07", "line 1 (number), 07"),
    (Fault::Number, "=7", "=", "line 1 (number)"),
    (Fault::Name, "=raw", "=raws", "line 2 (key), raws"),
    (
        Fault::Name,
        "=raw",
        "=\u{1b}[2J",
        "line 2 (key), \\u{1b}[2J",
    ),
    (Fault::Second, "steps", "right=0\nsteps", "line 5"),
    (Fault::More, "1000\n", "1000\n\n", "line 9"),
    (Fault::Digits, "depth=4", "depth=04", "line 7 (depth)"),
    (Fault::Empty, "right=* v0 v1", "right=", "line 4 (right)"),
    (Fault::Part, "v1 0", "v1", "line 3 (left), behind item 4"),
    (
        Fault::Item,
        "v1 0",
        "c100 0",
        "line 3 (left), item 4 (c100)",
    ),
    (Fault::Letters, "left=", MANY, "lines 3 and 4, 7 v letters"),
    (Fault::Bound, "size=9", "size=32", "line 6 (size)"),
    (Fault::Same, "+ * v0 v1 0", "* v0 v1", "lines 3 and 4"),
];
const MANY: &str = "left=+ v6 + v5 + v4 + v3 + v2 ";

const OF_WITHDRAWAL: [Case; 7] = [
    (Fault::Windows, "7\n", "7\r\n", "line 1"),
    (Fault::Missing, "number=7\n", "", "line 1 (number)"),
    (Fault::Key, "number", "Number", "line 1 (number)"),
    (Fault::End, "7\n", "7", "line 1 (number)"),
    (Fault::Number, "7", "x", "line 1 (number), x"),
    (Fault::More, "7\n", "7\nkey=raw\n", "line 2"),
    (Fault::Unlisted, "7", "8", "line 1 (number), 8"),
];

/// The row that is told of a fault.
fn row(fault: Fault) -> &'static Row {
    let mut rows = CHANGES.iter().chain(&JOBS);
    rows.find(|row| row.fault == fault).unwrap()
}

/// A catalogue that holds this put alone.
fn holding(text: &str) -> Vec<u32> {
    let mut numbers = vec![0; CATALOGUE];
    assert_eq!(Change::Put.call(text.as_bytes(), &mut numbers), 101);
    numbers
}

/// The text is refused for that fault, told at that place.
fn check(change: Change, text: &str, numbers: &mut [u32], due: (Fault, &str)) {
    let number = change.call(text.as_bytes(), numbers);
    let found = Text::new(change, text.as_bytes()).fault(number).unwrap();
    assert_eq!((found.fault, found.place.as_str()), due, "{text}");
    assert_eq!(row(found.fault).number, number, "{text}");
}

#[test]
fn the_place_of_each_fault_is_told() {
    for (fault, from, to, place) in OF_PUT {
        let mut numbers = vec![0; CATALOGUE];
        let text = PUT.replacen(from, to, 1);
        check(Change::Put, &text, &mut numbers, (fault, place));
    }
    let mut numbers = holding(PUT);
    let listed = (Fault::Listed, "line 1 (number), 7");
    check(Change::Put, PUT, &mut numbers, listed);
    for (fault, from, to, place) in OF_WITHDRAWAL {
        let text = "number=7\n".replacen(from, to, 1);
        check(Change::Withdraw, &text, &mut numbers, (fault, place));
    }
    let long = " ".repeat(MOST_PUT + 1);
    for change in Change::ALL {
        let due = (Fault::Long, "the whole text");
        check(change, &long, &mut numbers, due);
    }
}

#[test]
fn the_sides_of_a_put_are_shown() {
    let text = Text::new(Change::Put, PUT.as_bytes());
    let due = [("left", "+ * v0 v1 0"), ("right", "* v0 v1")];
    assert_eq!(text.sides(), due.map(|(key, side)| (key.to_owned(), side)));
    let text = Text::new(Change::Withdraw, PUT.as_bytes());
    assert_eq!(text.sides(), []);
}

/// Damages the text at one place, by a draw.
fn damage(text: &mut Vec<u8>, draw: u64) {
    const BYTES: &[u8] = b"+*vc019 =\n\r\xff\x00abstw";
    let place = (draw >> 8) as usize % (text.len() + 1);
    let byte = BYTES[(draw >> 40) as usize % BYTES.len()];
    match draw >> 60 {
        0..6 => text.insert(place, byte),
        6..12 if place < text.len() => text[place] = byte,
        12..15 if place < text.len() => drop(text.remove(place)),
        _ => text.truncate(place),
    }
}

/// Damages the texts and holds the fault that is found to the number that the entry gives; how often each was given.
fn hold(change: Change, texts: &[&str], rounds: usize) -> [usize; 16] {
    let before = holding(PUT);
    let mut numbers = before.clone();
    let (mut draw, mut counts): (u64, _) = (1, [0; 16]);
    for round in 0..rounds {
        let mut text = texts[round % texts.len()].as_bytes().to_vec();
        for _ in 0..1 + draw % 3 {
            draw = draw
                .wrapping_mul(6364136223846793005)
                .wrapping_add(1442695040888963407);
            damage(&mut text, draw ^ draw >> 29);
        }
        let number = match change.call(&text, &mut numbers) {
            100.. => {
                numbers.clone_from(&before);
                0
            }
            number => number,
        };
        counts[number] += 1;
        let found = Text::new(change, &text).fault(number);
        let found = found.map_or(0, |found| row(found.fault).number);
        assert_eq!(found, number, "{}", String::from_utf8_lossy(&text));
    }
    assert!(numbers == before);
    counts
}

#[test]
fn the_fault_found_is_one_of_the_number_given() {
    let counts = hold(Change::Put, &PUTS, 60_000);
    let often = [0, 1, 2, 5, 13].map(|number| counts[number]);
    assert!(often.into_iter().all(|count| count > 100), "{counts:?}");
    let counts = hold(Change::Withdraw, &["number=7\n", "number=77\n"], 20_000);
    let often = [0, 1, 14].map(|number| counts[number]);
    assert!(often.into_iter().all(|count| count > 100), "{counts:?}");
}
