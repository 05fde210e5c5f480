//! Points that document 01 leaves to be read: refusals of single values, whole texts and odd answers.

use oracle::plain::{self, job};
use oracle::{Call, Entry, PROGRAM_ROOM, PROGRAM_SLOTS, checked};

const GOOD: [&str; 6] = ["v0", "+ v0 0", "3", "7", "3", "1000"];

fn given(entry: Entry, values: [&str; 6]) -> Result<String, u8> {
    let call = Call {
        entry,
        slots: PROGRAM_SLOTS,
        room: PROGRAM_ROOM,
        job: job::write(&values),
    };
    let given = checked::answer(&call).unwrap_or_else(|difference| panic!("{difference}"));
    given.map(|text| String::from_utf8(text).expect("answers are ASCII"))
}

/// What FIND's refusal is when one line of a good job holds this value.
fn with(line: usize, value: &str) -> Option<u8> {
    let mut values = GOOD;
    values[line] = value;
    given(Entry::Find, values).err()
}

fn refused(entry: Entry, text: &[u8]) -> Option<u8> {
    plain::answer(entry, text, PROGRAM_SLOTS, PROGRAM_ROOM).err()
}

#[test]
fn limits_are_decimal_numbers() {
    let malformed = [
        "", "00", "03", " 3", "3 ", "+3", "-1", "3.0", "0x3", "3\r", "3\t", "3\0", "v",
    ];
    let too_large = ["65536", "4294967299", "18446744073709551619"];
    for line in 2..6 {
        let most = job::BOUNDS[line - 2];
        assert!(malformed.iter().all(|value| with(line, value) == Some(1)));
        assert!(too_large.iter().all(|value| with(line, value) == Some(5)));
        assert_eq!(with(line, "0"), None);
        assert_eq!(with(line, &most.to_string()), None);
        assert_eq!(with(line, &(most + 1).to_string()), Some(5));
    }
}

#[test]
fn sides_are_terms() {
    let no_terms = [
        "",
        " ",
        "v",
        "v00",
        "v007",
        "v1000",
        "v65536",
        "2",
        "10",
        "00",
        "01",
        "+*",
        "V0",
        " v0",
        "v0 ",
        "+ v0",
        "+ v0  v1",
        "+ v0 v1 v2",
        "v0 v1",
        "v0\r",
        "v0\t",
        "v0\0",
        "é",
    ];
    for value in no_terms {
        assert_eq!(with(0, value), Some(2), "left={value:?}");
        assert_eq!(with(1, value), Some(2), "right={value:?}");
    }
    for value in ["1", "0", "v7", "v999", "* 0 1"] {
        assert_eq!(with(0, value), None, "left={value:?}");
    }
}

#[test]
fn lines_stand_alone_and_in_order() {
    for entry in Entry::OF_JOBS {
        let refused = |text: &[u8]| refused(entry, text);
        let good = job::write(&GOOD);
        assert_eq!(refused(&good), None);
        let lines: Vec<&[u8]> = good.split_inclusive(|&byte| byte == b'\n').collect();
        for at in 0..6 {
            let mut doubled = lines.clone();
            doubled.insert(at, lines[at]);
            let may_repeat = entry == Entry::Find && at == 1;
            let due = (!may_repeat).then_some(1);
            assert_eq!(refused(&doubled.concat()), due);
            let mut missing = lines.clone();
            missing.remove(at);
            assert_eq!(refused(&missing.concat()), Some(1));
            let mut exchanged = lines.clone();
            exchanged.swap(at, (at + 1) % 6);
            assert_eq!(refused(&exchanged.concat()), Some(1));
        }
        assert_eq!(refused(&good[..good.len() - 1]), Some(1));
        for more in [&b"\n"[..], b" ", b"\0", b"x"] {
            assert_eq!(refused(&[&good[..], more].concat()), Some(1));
            assert_eq!(refused(&[more, &good[..]].concat()), Some(1));
        }
    }
}

#[test]
fn length_counts_the_whole_text() {
    let bytes = job::write(&GOOD).len() - GOOD[0].len();
    for (entry, most) in [
        (Entry::Find, 4_096),
        (Entry::Words, 1_024),
        (Entry::Rename, 1_024),
        (Entry::Same, 1_024),
    ] {
        let of_length = |length: usize| {
            let left = "0".repeat(length - bytes);
            let mut values = GOOD;
            values[0] = &left;
            given(entry, values).err()
        };
        assert_eq!(of_length(most), Some(2));
        assert_eq!(of_length(most + 1), Some(1));
        assert_eq!(of_length(70_000), Some(1));
    }
}

#[test]
fn lowest_number_counts() {
    let nodes_33 = format!("{}v0", "+ v0 ".repeat(16));
    let items_32 = format!("{}v0", "v0 ".repeat(31));
    let seven = "+ v0 + v1 + v2 + v3 + v4 + v5 v6";
    let jobs = [
        (1, [&nodes_33, "2", "03", "99", "0", "0"]),
        (2, [&nodes_33, "2", "99", "0", "0", "0"]),
        (2, [&items_32, "v0", "1", "1", "1", "1"]),
        (3, [&nodes_33, seven, "99", "0", "0", "0"]),
        (3, [&nodes_33, &nodes_33, "1", "1", "1", "1"]),
        (4, [seven, seven, "99", "0", "0", "0"]),
        (4, ["+ v0 + v1 v2", "+ v3 + v4 + v5 v6", "1", "1", "1", "1"]),
        (5, ["v0", "v0", "17", "0", "0", "0"]),
        (6, ["v0", "v0", "16", "0", "0", "0"]),
    ];
    for (number, values) in jobs {
        for entry in Entry::OF_JOBS {
            assert_eq!(given(entry, values).err(), Some(number), "{values:?}");
        }
    }
}

#[test]
fn slots_and_room_are_upper_bounds() {
    let direct = job::write(&GOOD);
    let (text, _) = plain::whole(Entry::Find, &direct).expect("case A");
    let room = text.len();
    assert_eq!(plain::answer(Entry::Find, &direct, 0, room), Ok(text));
    assert_eq!(plain::answer(Entry::Find, &direct, 0, room - 1), Err(8));
    let unopened = job::write(&["v0", "v1", "0", "7", "3", "0"]);
    assert_eq!(plain::answer(Entry::Find, &unopened, 0, 0), Err(7));
    assert_eq!(plain::answer(Entry::Find, &unopened, 1, 0), Err(8));
    assert!(plain::answer(Entry::Find, &unopened, 1, 1000).is_ok());
}

#[test]
fn lists_and_renamings() {
    let answers = [
        (Entry::Words, ["0", "* 0 v3"], "same=yes\nleft=0\nright=0\n"),
        (
            Entry::Words,
            ["1", "0"],
            "same=no\nleft=0\nright=1\ndiffer=0\n",
        ),
        (
            Entry::Words,
            ["+ v2 * v1 v9", "v1"],
            "same=no\nleft=v1\nright=v1 v9;v2\ndiffer=0\n",
        ),
        (Entry::Same, ["0", "* 0 v3"], "same=yes\n"),
        (Entry::Same, ["1", "0"], "same=no\n"),
        (Entry::Same, ["+ v2 * v1 v9", "v1"], "same=no\n"),
        (
            Entry::Rename,
            ["+ v9 * 0 v4", "1"],
            "left=1\nright=+ v0 * 0 v1\nwleft=1\nwright=v0\n",
        ),
        (
            Entry::Rename,
            ["0", "+ 1 1"],
            "left=0\nright=+ 1 1\nwleft=0\nwright=1;1\n",
        ),
        (
            Entry::Rename,
            ["+ v8 v3", "+ v3 v8"],
            "left=+ v0 v1\nright=+ v1 v0\nwleft=-\nwright=-\n",
        ),
    ];
    for (entry, [left, right], due) in answers {
        let values = [left, right, "3", "7", "3", "1000"];
        assert_eq!(given(entry, values).as_deref(), Ok(due));
    }
}

#[test]
fn places_are_written_outermost_first() {
    let values = ["+ v0 * + v1 0 v2", "+ v0 * v1 v2", "1", "7", "3", "10"];
    let text = given(Entry::Find, values).expect("one line");
    assert!(text.contains("step=add_zero_right forward at=rl to=+ v0 * + v1 0 v2\n"));
}
