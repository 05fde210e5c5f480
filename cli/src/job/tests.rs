//! Held to the entries: the fault that is found is one of the number that they give.

use puvainy::{Buffers, Room};

use super::*;
use crate::refusals::of_jobs;

mod weighings;

/// The entries that take a job without weights.
const ENTRIES: [Entry; 4] = [Entry::Find, Entry::Words, Entry::Rename, Entry::Same];

/// A job that each of them accepts, and others that a small damage makes one of too many v letters, of equal sides, or over a bound.
const JOB: &str = "left=+ * v0 v1 0\nright=* v0 v1\nsteps=3\nsize=9\ndepth=4\nnodes=1000\n";
const JOBS: [&str; 6] = [
    JOB,
    "left=+ v0 + v1 + v2 v3\nright=+ v0 + v1 + v4 v5\nsteps=3\nsize=9\ndepth=4\nnodes=10\n",
    "left=+ v0 + v1 + v2 v3\nright=+ v4 + v5 + c6 c7\nsteps=3\nsize=9\ndepth=4\nnodes=10\n",
    "left=c9\nright=c99\nsteps=3\nsize=9\ndepth=4\nnodes=1000\n",
    "left=v0\nright=v1\nsteps=3\nsize=9\ndepth=4\nnodes=1000\n",
    "left=v0\nright=1\nsteps=16\nsize=31\ndepth=15\nnodes=4096\n",
];

/// A job with three right sides, which FIND alone accepts.
const THREE: &str = "left=+ v1 0\nright=+ 0 v1\nright=* v0 v1\nright=+ * v0 v1 0\nsteps=3\nsize=9\ndepth=4\nnodes=1000\n";

/// A fault, what is put in the place of what in a job to make it, and where it is told.
type Case = (Fault, &'static str, &'static str, &'static str);

/// Of `JOB`, by each of the entries.
const FAULTS: [Case; 24] = [
    (Fault::Mark, "left", "\u{feff}left", "the whole text"),
    (Fault::Mark, "left", "l\0e\0f\0t\0", "the whole text"),
    (Fault::Windows, "3\n", "3\r\n", "line 3"),
    (Fault::Missing, "nodes=1000\n", "", "line 6 (nodes)"),
    (Fault::Missing, JOB, "", "line 1 (left)"),
    (Fault::Key, "size", "Size", "line 4 (size)"),
    (Fault::End, "1000\n", "1000", "line 6 (nodes)"),
    (Fault::More, "1000\n", "1000\n\n", "line 7"),
    (Fault::Digits, "depth=4", "depth=04", "line 5 (depth)"),
    (Fault::Empty, "right=* v0 v1", "right=", "line 2 (right)"),
    (Fault::Space, "v0 v1 0", "v0  v1 0", "line 1 (left), item 4"),
    (
        Fault::Item,
        "v1 0",
        "v\u{e9}\t1 0",
        "line 1 (left), item 4 (v\u{e9}\\t1)",
    ),
    (
        Fault::Item,
        "v1 0",
        "c100 0",
        "line 1 (left), item 4 (c100)",
    ),
    (Fault::Item, "v1 0", "c00 0", "line 1 (left), item 4 (c00)"),
    (Fault::Item, "v1 0", "c 0", "line 1 (left), item 4 (c)"),
    (Fault::Part, "v1 0", "v1", "line 1 (left), behind item 4"),
    (Fault::Left, "v1 0", "v1 0 0", "line 1 (left), item 6"),
    (
        Fault::Nodes,
        "right=* v0 v1",
        WIDE,
        "line 2 (right), 33 nodes",
    ),
    (Fault::Letters, "left=", MANY, "lines 1 and 2, 7 v letters"),
    (
        Fault::Letters,
        "left=",
        MANY_WITH_TABLES,
        "lines 1 and 2, 7 v letters",
    ),
    (Fault::Bound, "size=9", "size=32", "line 4 (size)"),
    (
        Fault::Bound,
        "1000",
        "99999999999999999999",
        "line 6 (nodes)",
    ),
    (Fault::Same, "+ * v0 v1 0", "* v0 v1", "lines 1 and 2"),
    (Fault::Same, "* v0 v1\n", "+ * v0 v1 0\n", "lines 1 and 2"),
];
const WIDE: &str =
    "right=+ v1 + v1 + v1 + v1 + v1 + v1 + v1 + v1 + v1 + v1 + v1 + v1 + v1 + v1 + v1 + v1 v1";
const MANY: &str = "left=+ v6 + v5 + v4 + v3 + v2 ";
const MANY_WITH_TABLES: &str = "left=+ c0 + c99 + v6 + v5 + v4 + v3 + v2 ";

/// Of `THREE`, by FIND.
const OF_THREE: [Case; 18] = [
    (Fault::Windows, "3\n", "3\r\n", "line 5"),
    (Fault::Missing, "nodes=1000\n", "", "line 8 (nodes)"),
    (
        Fault::Key,
        "right=* ",
        "Right=* ",
        "line 3 (right or steps)",
    ),
    (Fault::Key, "steps", "Steps", "line 5 (right or steps)"),
    (Fault::Key, "size", "sizes", "line 6 (size)"),
    (Fault::Stray, "size", "right=0\nsize", "line 6"),
    (Fault::End, "1000\n", "1000", "line 8 (nodes)"),
    (Fault::Stray, "1000\n", "1000\nright=0\n", "line 9"),
    (Fault::More, "1000\n", "1000\nsteps=3\n", "line 9"),
    (Fault::Digits, "depth=4", "depth=04", "line 7 (depth)"),
    (
        Fault::Return,
        "* v0 v1\n",
        "* v0 v1\r\n",
        "line 3 (right 2)",
    ),
    (Fault::Empty, "=* v0 v1", "=", "line 3 (right 2)"),
    (
        Fault::Part,
        "=* v0 v1",
        "=* v0",
        "line 3 (right 2), behind item 2",
    ),
    (
        Fault::NodesRight,
        "right=* v0 v1",
        WIDE,
        "line 3 (right 2), 33 nodes",
    ),
    (
        Fault::LettersRight,
        "=* v0 v1",
        "=* v0 * v6 * v2 * v3 * v4 v5",
        "line 3 (right 2), 7 v letters",
    ),
    (Fault::Bound, "size=9", "size=32", "line 6 (size)"),
    (
        Fault::SameRight,
        "* v0 v1\n",
        "+ v1 0\n",
        "line 3 (right 2)",
    ),
    (Fault::Before, "* v0 v1\n", "+ v1 v0\n", "line 3 (right 2)"),
];

/// The fault for which the entry refuses the job.
fn fault(entry: Entry, job: &str) -> Found {
    let mut buffers = Buffers::new(0, Room::Grows);
    let number = buffers.ask(entry, job.as_bytes()).unwrap_err();
    let found = Job::new(entry, job.as_bytes()).fault(number).unwrap();
    let row = of_jobs(entry).find(|row| row.fault == found.fault);
    assert_eq!(row.unwrap().number, number, "{job}");
    found
}

/// What is told of the fault.
fn told(entry: Entry, job: &str) -> (Fault, String) {
    let Found { fault, place, .. } = fault(entry, job);
    (fault, place)
}

#[test]
fn the_place_of_each_fault_is_told() {
    for (due, from, to, place) in FAULTS {
        for entry in ENTRIES {
            let job = JOB.replacen(from, to, 1);
            assert_eq!(told(entry, &job), (due, place.to_owned()));
        }
    }
    for entry in ENTRIES {
        let long = " ".repeat(entry.most_job() + 1);
        assert_eq!(
            told(entry, &long),
            (Fault::Long, "the whole text".to_owned())
        );
    }
    let key = JOB.replace("steps", "Steps");
    let place = |entry| told(entry, &key).1;
    assert_eq!(place(Entry::Find), "line 3 (right or steps)");
    assert_eq!(place(Entry::Words), "line 3 (steps)");
}

#[test]
fn of_several_right_sides_the_place_of_each_fault_is_told() {
    for (due, from, to, place) in OF_THREE {
        let job = THREE.replacen(from, to, 1);
        assert_eq!(told(Entry::Find, &job), (due, place.to_owned()));
    }
    let more = format!("=+ 0 v1\n{}", "right=v \n".repeat(14));
    let job = THREE.replacen("=+ 0 v1\n", &more, 1);
    let due = (Fault::Rights, "line 18 (right 17)".to_owned());
    assert_eq!(told(Entry::Find, &job), due);
    for entry in [Entry::Words, Entry::Rename, Entry::Same] {
        let due = |place: &str| (Fault::Second, place.to_owned());
        assert_eq!(told(entry, THREE), due("line 3"));
        let behind = JOB.replacen("size", "right=0\nsize", 1);
        assert_eq!(told(entry, &behind), due("line 4"));
        assert_eq!(told(entry, &format!("{JOB}right=0\n")), due("line 7"));
    }
    let left = THREE.replacen("left=+ v1 0", &WIDE.replacen("right", "left", 1), 1);
    let due = (Fault::Nodes, "line 1 (left), 33 nodes".to_owned());
    assert_eq!(told(Entry::Find, &left), due);
}

/// Of what stands between left and one right side, all that are at fault are told.
#[test]
fn all_right_sides_at_fault_are_told() {
    let many = |count: usize| {
        let parts: String = (2..=count).map(|letter| format!("+ v{letter} ")).collect();
        format!("+ v1 {parts}0")
    };
    for (fault, first, second, place) in [
        (
            Fault::LettersRight,
            many(7),
            many(8),
            "lines 2 and 4 (right 1 and 3), 7 and 8 v letters",
        ),
        (
            Fault::SameRight,
            "+ v1 0".to_owned(),
            "+ v1 0".to_owned(),
            "lines 2 and 4 (right 1 and 3)",
        ),
        (
            Fault::Before,
            "v1".to_owned(),
            "+ v0 1".to_owned(),
            "lines 2 and 4 (right 1 and 3)",
        ),
    ] {
        let job = THREE.replacen("=+ 0 v1\n", &format!("={first}\n"), 1);
        let job = job.replacen("=+ * v0 v1 0\n", &format!("={second}\n"), 1);
        let due = Found {
            fault,
            place: place.to_owned(),
            sides: vec![1, 3],
        };
        assert_eq!(self::fault(Entry::Find, &job), due);
    }
}

/// Thirty-two different letters are accepted, of which six are v letters; a seventh v letter is told.
#[test]
fn c_letters_are_not_counted() {
    let sum = |first: &str, tables: std::ops::Range<usize>| {
        let tables: Vec<_> = tables.map(|table| format!("c{table}")).collect();
        format!("{}{first} {}", "+ ".repeat(15), tables.join(" "))
    };
    let left = sum("v0 v1 v2", 0..13);
    let right = sum("v3 v4 v5", 50..63);
    let limits = &JOB[JOB.find("steps").unwrap()..];
    let accepted = format!("left={left}\nright={right}\n{limits}");
    let refused = accepted.replacen("c62", "v6", 1);
    for entry in ENTRIES {
        let mut buffers = Buffers::new(400, Room::Grows);
        assert!(buffers.ask(entry, accepted.as_bytes()).is_ok());
        let due = (Fault::Letters, "lines 1 and 2, 7 v letters".to_owned());
        assert_eq!(told(entry, &refused), due);
    }
}

/// A right side that differs from left in a c letter alone comes before it or behind it by that letter's number.
#[test]
fn c_letters_are_ordered_after_v_letters_and_before_0() {
    let rising = ["v0", "v999", "c0", "c9", "c10", "c99", "0"];
    let limits = &JOB[JOB.find("steps").unwrap()..];
    for (index, left) in rising.iter().enumerate() {
        for right in &rising[..index] {
            let job = format!("left=+ {left} v0\nright=* 1 1\nright=+ {right} v0\n{limits}");
            let due = (Fault::Before, "line 3 (right 2)".to_owned());
            assert_eq!(told(Entry::Find, &job), due);
        }
        for right in &rising[index + 1..] {
            let job = format!("left=+ {left} v0\nright=* 1 1\nright=+ {right} v0\n{limits}");
            let mut buffers = Buffers::new(400, Room::Grows);
            assert!(buffers.ask(Entry::Find, job.as_bytes()).is_ok());
            assert_eq!(Job::new(Entry::Find, job.as_bytes()).fault(10), None);
        }
    }
}

#[test]
fn of_several_right_sides_those_at_fault_are_known() {
    let sides = |from, to| fault(Entry::Find, &THREE.replacen(from, to, 1)).sides;
    assert_eq!(sides("=+ v1 0", "=+ v1"), [0]);
    assert_eq!(sides("* v0 v1\n", "+ v1 v0\n"), [2]);
    assert_eq!(sides("size=9", "size=32"), []);
    let job = Job::new(Entry::Find, THREE.as_bytes());
    let due = [("left", "+ v1 0"), ("right 2", "* v0 v1")];
    let due: Vec<_> = due.map(|(key, side)| (key.to_owned(), side)).into();
    assert_eq!(job.sides(|right| right == 2), due);
    assert_eq!(job.sides(|_| true).len(), 4);
    let one = Job::new(Entry::Find, JOB.as_bytes());
    assert_eq!(one.sides(|_| false).len(), 2);
}

/// Damages the job at one place, by a draw.
fn damage(job: &mut Vec<u8>, draw: u64) {
    const BYTES: &[u8] = b"+*vc019 =\n\r\xff\x00abst";
    let place = (draw >> 8) as usize % (job.len() + 1);
    let byte = BYTES[(draw >> 40) as usize % BYTES.len()];
    match draw >> 60 {
        0..6 => job.insert(place, byte),
        6..12 if place < job.len() => job[place] = byte,
        12..15 if place < job.len() => drop(job.remove(place)),
        _ => job.truncate(place),
    }
}

/// Damages the jobs and holds the fault that is found to the number that the entry gives; how often each was given. Slots and room are
/// no matter of the text.
fn hold(entry: Entry, jobs: &[String], rounds: usize) -> [usize; 17] {
    let mut buffers = Buffers::new(0, Room::Bytes(0));
    let mut draw: u64 = 1;
    let mut counts = [0; 17];
    for round in 0..rounds {
        let mut job = jobs[round % jobs.len()].as_bytes().to_vec();
        for _ in 0..1 + draw % 3 {
            draw = draw
                .wrapping_mul(6364136223846793005)
                .wrapping_add(1442695040888963407);
            damage(&mut job, draw ^ draw >> 29);
        }
        let number = match buffers.ask(entry, &job) {
            Ok(_) | Err(7 | 8) => 0,
            Err(number) => number,
        };
        counts[number] += 1;
        let found = Job::new(entry, &job).fault(number).map(|found| found.fault);
        let row = of_jobs(entry).find(|row| Some(row.fault) == found);
        let text = String::from_utf8_lossy(&job);
        assert_eq!(row.map_or(0, |row| row.number), number, "{text}");
    }
    counts
}

#[test]
fn the_fault_found_is_one_of_the_number_given() {
    let one = JOBS.map(str::to_owned);
    for entry in ENTRIES {
        let counts = hold(entry, &one, 40_000);
        let often = [0, 1, 2, 5].map(|number| counts[number]);
        assert!(often.into_iter().all(|count| count > 100), "{counts:?}");
    }
    let limits = &THREE[THREE.find("steps").unwrap()..];
    let several = [
        format!("left=v1\nright=v9\nright=v10\n{limits}"),
        format!("left=c1\nright=c9\nright=c10\n{limits}"),
        format!("left=+ v0 + v1 + v2 v3\nright=+ v1 0\nright=+ v0 + v1 + v4 v5\n{limits}"),
        format!("left=+ v0 + v1 + v2 v3\nright=+ c1 0\nright=+ v4 + c1 + c4 v5\n{limits}"),
        format!("left=0\n{}{limits}", "right=1\n".repeat(16)),
        format!("left=0\n{}{limits}", "right=1\n".repeat(17)),
    ];
    let counts = hold(Entry::Find, &several, 200_000);
    let often = [0, 1, 2, 4, 5, 6, 9, 10].map(|number| counts[number]);
    assert!(often.into_iter().all(|count| count > 50), "{counts:?}");
    let counts = hold(Entry::Words, &several, 4_000);
    assert!(counts[0] == 0 && counts[1] > 3_000, "{counts:?}");
}
