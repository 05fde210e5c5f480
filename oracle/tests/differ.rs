//! The eighth wish of document 02: WORDS that says no ends with the place of the first words that differ. What is
//! printed is held to the words printed above it, wrong last lines are found out, and generated lists part at many
//! places.

mod common;

use oracle::generate::{KINDS, Plan};
use oracle::plain::job::{self, Job};
use oracle::plain::parted::{last_line_off, said};
use oracle::plain::term::{FIRST_C, ONE, ZERO};
use oracle::plain::words::words;
use oracle::{Call, Entry, PROGRAM_ROOM, checked, plain};

fn words_of(left: &str, right: &str) -> Call {
    Call {
        entry: Entry::Words,
        slots: 0,
        room: PROGRAM_ROOM,
        job: job::write(&[left, right, "3", "7", "3", "1000"]),
    }
}

/// The answer with room enough; plain and the Rust agree on it.
fn answer(call: Call) -> Vec<u8> {
    let call = Call {
        room: PROGRAM_ROOM,
        ..call
    };
    let given = checked::answer(&call).unwrap_or_else(|difference| panic!("{difference}"));
    given.expect("a good job")
}

/// Holds the lines of an answer to the words printed in them; gives the place.
fn hold(answer: &[u8]) -> Option<usize> {
    let text = std::str::from_utf8(answer).expect("answers are ASCII");
    let lines: Vec<&str> = text.split_terminator('\n').collect();
    let list = |at: usize, key| {
        let list = lines[at].strip_prefix(key).expect("a line of words");
        let words = list.split(';').filter(|&word| word != "0");
        words.collect::<Vec<_>>()
    };
    let (left, right) = (list(1, "left="), list(2, "right="));
    let place = match lines[..] {
        ["same=yes", _, _] => {
            assert_eq!(left, right, "{text}");
            None
        }
        ["same=no", _, _, last] => {
            let digits = last.strip_prefix("differ=").expect("the last line");
            let place: usize = digits.parse().expect("a number");
            assert_eq!(place.to_string(), digits);
            assert_eq!(left[..place], right[..place], "{text}");
            assert_ne!(left.get(place), right.get(place), "{text}");
            Some(place)
        }
        _ => panic!("three lines, or four where the lists differ: {text}"),
    };
    let said = said(answer);
    assert_eq!((said.lists, said.place), ([left, right], place));
    place
}

/// Every equation between terms of at most three nodes over two v letters, a c letter, 0 and 1.
#[test]
fn small_equations() {
    let mut counts = [0; 3];
    for equation in common::equations(&[3, 8, FIRST_C, ZERO, ONE]) {
        let call = words_of(&equation.left.show(), &equation.right.show());
        let place = hold(&answer(call));
        counts[place.map_or(2, |place| place)] += 1;
    }
    // parted at the first word, at the second, not at all
    assert_eq!(counts, [2_574, 202, 194]);
}

/// Whether a text is told as a wrong answer to a call.
fn told(call: &Call, text: &str) -> bool {
    let text = Ok(text.as_bytes().to_vec());
    checked::beside_rust(call, &text).is_err()
}

/// A last line that isn't there, or isn't the last, or names another place.
#[test]
fn wrong_last_lines_are_told() {
    let no = words_of("+ v0 v1", "+ v0 + v1 v1");
    let (same, left, right) = ("same=no\n", "left=v0;v1\n", "right=v0;v1;v1\n");
    let lists = format!("{same}{left}{right}");
    assert!(!told(&no, &format!("{lists}differ=2\n")));
    let lasts = [
        "",
        "\n",
        "differ=0\n",
        "differ=1\n",
        "differ=3\n",
        "differ=02\n",
        "differ=2 \n",
        "differ= 2\n",
        "differ=\n",
        "differ=2",
        "Differ=2\n",
        "differ=2\n\n",
        "differ=2\ndiffer=2\n",
        "differ=1\ndiffer=2\n",
        "cut=no\ndiffer=2\n",
    ];
    for last in lasts {
        assert!(told(&no, &format!("{lists}{last}")), "{last:?}");
    }
    for lines in [
        format!("differ=2\n{lists}"),
        format!("{same}differ=2\n{left}{right}"),
        format!("{same}{left}differ=2\n{right}"),
        format!("same=yes\n{left}{right}differ=2\n"),
        format!("same=yes\n{left}{right}"),
        same.to_owned(),
    ] {
        assert!(told(&no, &lines), "{lines}");
    }
}

#[test]
fn a_last_line_beside_a_yes_is_told() {
    let yes = words_of("+ v0 v1", "+ v1 v0");
    let lists = "same=yes\nleft=v0;v1\nright=v0;v1\n";
    assert!(!told(&yes, lists));
    for last in ["\n", "differ=2\n", "differ=\n"] {
        assert!(told(&yes, &format!("{lists}{last}")), "{last:?}");
    }
}

fn made(kind: &str) -> impl Iterator<Item = Call> {
    let plan = Plan {
        count: 1_000,
        kind: KINDS.iter().position(|one| one.name == kind),
        ..Plan::default()
    };
    let calls: Vec<Call> = plan.calls().map(|(_, call)| call).collect();
    calls.into_iter().filter(|call| call.entry == Entry::Words)
}

/// How many words the job's own left and right side have.
fn counts(call: &Call) -> [usize; 2] {
    let job = Job::read(Entry::Words, &call.job).expect("a good job");
    let equation = &job.equations[0];
    [&equation.left, &equation.right].map(|side| words(side).len())
}

#[test]
fn lists_part_at_many_places() {
    for kind in ["parted", "c-parted"] {
        let (mut same, mut zero, mut digits, mut most) = (0, 0, [0; 3], 0);
        // by which side of the job it is
        let (mut ends, mut wordless) = ([0; 2], [0; 2]);
        for call in made(kind) {
            let counts = counts(&call);
            match hold(&answer(call)) {
                None => same += 1,
                Some(place) => {
                    match place {
                        0 => zero += 1,
                        _ => digits[place.ilog10() as usize] += 1,
                    }
                    most = most.max(place);
                    for side in [0, 1] {
                        ends[side] += usize::from(counts[side] == place);
                        wordless[side] += usize::from(counts[side] == 0);
                    }
                }
            }
        }
        let met = [[same, zero].as_slice(), &digits, &ends, &wordless].concat();
        assert!(met.iter().all(|&count| count > 25), "{kind}: {met:?}");
        assert_eq!(most, 288, "{kind}");
    }
}

/// Room for all but the last byte, or for the three lines alone, is too little.
#[test]
fn room_counts_the_last_line() {
    let mut rooms = [0; 3];
    for call in made("parted") {
        let given = |room| plain::answer(Entry::Words, &call.job, 0, room);
        let whole = given(PROGRAM_ROOM).expect("room enough");
        let (lists, last) = last_line_off(&whole);
        assert_eq!(given(whole.len()).as_ref(), Ok(&whole));
        for room in lists.len()..whole.len() {
            assert_eq!(given(room), Err(8));
        }
        let room = call.room.wrapping_sub(lists.len());
        if !last.is_empty() {
            rooms[0] += usize::from(room == 0);
            rooms[1] += usize::from(room == last.len() - 1);
            rooms[2] += usize::from(room == last.len());
        }
    }
    // the rooms of the calls themselves
    assert!(rooms.iter().all(|&count| count > 8), "{rooms:?}");
}
