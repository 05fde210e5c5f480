//! Points of the first wish of document 02, several right sides, that are left to be read.

use oracle::plain::{self, job};
use oracle::{Call, Entry, PROGRAM_ROOM, PROGRAM_SLOTS, checked};

const LIMITS: [&str; 4] = ["3", "7", "3", "1000"];

fn text(left: &str, rights: &[&str], limits: [&str; 4]) -> Vec<u8> {
    job::write(&[&[left], rights, &limits].concat())
}

fn given(entry: Entry, job: Vec<u8>) -> Result<String, u8> {
    let call = Call {
        entry,
        slots: PROGRAM_SLOTS,
        room: PROGRAM_ROOM,
        job,
    };
    let given = checked::answer(&call).unwrap_or_else(|difference| panic!("{difference}"));
    given.map(|text| String::from_utf8(text).expect("answers are ASCII"))
}

fn find(left: &str, rights: &[&str], limits: [&str; 4]) -> Result<String, u8> {
    given(Entry::Find, text(left, rights, limits))
}

/// A job with every reason to refuse before the search, which are then taken away one by one.
#[test]
fn refusals_come_in_order() {
    let nodes_33 = format!("{}v1", "+ v1 ".repeat(16));
    let seven = "+ v2 + v3 + v4 + v5 + v6 v7";
    let mut limits = ["03", "17", "3", "4097"];
    let mut rights = vec!["v0", "v1", seven, &nodes_33, "+ v1"];
    rights.resize(17, "+ v1 0");
    let refused = |rights: &[&str], limits| find("v1", rights, limits).err();
    assert_eq!(refused(&rights, limits), Some(1));
    limits[0] = "3";
    assert_eq!(refused(&rights, limits), Some(9));
    rights.pop();
    assert_eq!(refused(&rights, limits), Some(2));
    rights[4] = "+ v1 0";
    assert_eq!(refused(&rights, limits), Some(3));
    rights[3] = "+ v1 0";
    assert_eq!(refused(&rights, limits), Some(4));
    rights[2] = "+ v1 0";
    assert_eq!(refused(&rights, limits), Some(5));
    limits = LIMITS;
    assert_eq!(refused(&rights, limits), Some(6));
    rights[1] = "+ v1 0";
    assert_eq!(refused(&rights, limits), Some(10));
    rights[0] = "+ v1 0";
    assert_eq!(refused(&rights, limits), None);
}

#[test]
fn one_right_side_refuses_the_job_at_any_place() {
    let nodes_33 = format!("{}v1", "+ v1 ".repeat(16));
    let bad = [
        (2, "+ v1"),
        (2, ""),
        (3, &nodes_33),
        (4, "+ v2 + v3 + v4 + v5 + v6 v7"),
        (6, "v1"),
        (10, "v0"),
    ];
    for (number, side) in bad {
        for at in 0..16 {
            let mut rights = ["+ v1 0"; 16];
            rights[at] = side;
            assert_eq!(find("v1", &rights, LIMITS).err(), Some(number), "{side}");
        }
    }
    // by itself it is the left side
    assert!(find("v1", &["v0"], LIMITS).is_ok());
}

#[test]
fn letters_count_in_each_equation() {
    let rights = ["+ v1 + v2 + v3 + v4 v5", "+ v6 + v7 + v8 + v9 v10"];
    assert!(find("v0", &rights, ["0"; 4]).is_ok());
    let left = "+ v0 v11";
    assert_eq!(
        find(left, &["* v0 v11", rights[1]], ["0"; 4]).err(),
        Some(4)
    );
}

#[test]
fn right_lines_stand_behind_left_and_before_the_limits() {
    let good = text("v0", &["+ v0 0", "+ 0 v0"], LIMITS);
    let lines: Vec<&[u8]> = good.split_inclusive(|&byte| byte == b'\n').collect();
    for at in 0..lines.len() {
        let mut moved = lines.clone();
        let right = moved.remove(2);
        moved.insert(at, right);
        let is_good = at == 1 || at == 2;
        assert_eq!(given(Entry::Find, moved.concat()).is_ok(), is_good, "{at}");
    }
    for entry in [Entry::Words, Entry::Rename, Entry::Same] {
        assert_eq!(given(entry, good.clone()), Err(1));
    }
}

#[test]
fn blocks_stand_in_the_jobs_order() {
    let near = find("v0", &["+ v0 0"], LIMITS).expect("one line");
    let far = find("v0", &["+ 0 v0"], LIMITS).expect("two lines");
    let none = find("v0", &["* v0 v0"], LIMITS).expect("a none");
    let three = find("v0", &["+ 0 v0", "* v0 v0", "+ v0 0"], LIMITS);
    assert_eq!(three, Ok([far.clone(), none, near.clone()].concat()));
    let twice = find("v0", &["+ 0 v0", "+ 0 v0"], LIMITS);
    assert_eq!(twice, Ok(far.repeat(2)));
}

#[test]
fn each_block_has_all_slots() {
    let job = text("v0", &["+ 0 v0", "+ v0 0", "v1"], ["1", "7", "3", "1000"]);
    let answer = |slots| {
        let given = plain::answer(Entry::Find, &job, slots, usize::MAX);
        let text = given.expect("several right sides are never refused by 7");
        String::from_utf8(text).expect("answers are ASCII")
    };
    let said = |slots: usize| {
        let text = answer(slots);
        let said = text.lines().filter_map(|line| line.strip_prefix("answer="));
        said.map(str::to_owned).collect::<Vec<_>>()
    };
    // left and its three results take four slots, a direct match none
    assert_eq!(said(0), ["refused", "proved", "refused"]);
    assert_eq!(said(3), ["refused", "proved", "refused"]);
    assert_eq!(said(4), ["none", "proved", "none"]);
}

#[test]
fn room_is_for_all_blocks() {
    let job = text("v0", &["+ v0 0", "+ 0 v0"], LIMITS);
    let (text, slots) = plain::whole(Entry::Find, &job).expect("a good job");
    assert_eq!(slots, 8);
    let room = text.len();
    assert_eq!(plain::answer(Entry::Find, &job, slots, room), Ok(text));
    assert_eq!(plain::answer(Entry::Find, &job, slots, room - 1), Err(8));
    let lacking = "answer=refused\nnumber=7\n".len();
    let unopened = job::write(&["v0", "v1", "v2", "0", "0", "0", "0"]);
    assert!(plain::answer(Entry::Find, &unopened, 0, 2 * lacking).is_ok());
    assert_eq!(
        plain::answer(Entry::Find, &unopened, 0, 2 * lacking - 1),
        Err(8)
    );
}
