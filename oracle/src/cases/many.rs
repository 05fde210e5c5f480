//! Cases for several right sides, and for longer texts of FIND.

use super::{A_PROVED, Case, D_PROVED, Due, LIMITS, Limits, call, case, none, sum_of};
use crate::plain::job;
use crate::{Call, Entry};

const A: &str = "+ v0 0";
const D: &str = "+ 0 v0";
const NO_LIMITS: Limits = ["0"; 4];
const OUT_OF_SLOTS: Due = Ok("answer=refused\nnumber=7\n");

/// The sides of case D at steps 1 and at nodes 1, and of three equations without a limit above 0.
const D2_NONE: Due = none!("v0", "+ 0 v0", "1", "no");
const D3_NONE: Due = none!("v0", "+ 0 v0", "1", "yes");
const LOW_NONE: Due = none!("v0", "+ v1 + v2 v3", "0", "no");
const HIGH_NONE: Due = none!("v0", "+ v4 + v5 v6", "0", "no");
const ORIENTED_NONE: Due = none!("v0", "v1", "0", "no");

pub fn cases() -> Vec<Case> {
    let mut all = answered();
    all.extend(cut());
    all.extend(scarce());
    all.extend(refused());
    all.extend(ordered());
    all.extend(lines());
    all.extend(lengths());
    all
}

/// FIND of left with several right sides.
pub fn several(left: &str, rights: &[&str], limits: Limits) -> Call {
    let values = [&[left], rights, &limits].concat();
    Call {
        job: job::write(&values),
        ..call(Entry::Find, ["v0", "v1"], limits)
    }
}

/// A case whose answer is these blocks.
pub fn blocks(name: &'static str, call: Call, due: &[Due]) -> Case {
    let texts = due.iter().map(|block| block.expect("a block is a text"));
    let due = Ok(texts.collect());
    Case { name, call, due }
}

fn answered() -> Vec<Case> {
    let zero_mul = "answer=proved\nleft=0\nright=* 0 v7\nsteps=1\nexpanded=0\nuses=zero_mul\n\
        step=zero_mul forward at=. to=* 0 v7\nproof=(lam x0 (app (ref zero_mul) (ref x0)))\n";
    let mul_zero = "answer=proved\nleft=0\nright=* v3 0\nsteps=1\nexpanded=0\nuses=mul_zero\n\
        step=mul_zero forward at=. to=* v3 0\nproof=(lam x0 (app (ref mul_zero) (ref x0)))\n";
    let sixteen = Call {
        slots: 0,
        ..several("v0", &[A; 16], LIMITS)
    };
    vec![
        blocks(
            "A and D",
            several("v0", &[A, D], LIMITS),
            &[A_PROVED, D_PROVED],
        ),
        blocks(
            "D, A and D",
            several("v0", &[D, A, D], LIMITS),
            &[D_PROVED, A_PROVED, D_PROVED],
        ),
        blocks(
            "D2 and A",
            several("v0", &[D, A], ["1", "7", "3", "1000"]),
            &[D2_NONE, A_PROVED],
        ),
        blocks("A sixteen times, no slot", sixteen, &[A_PROVED; 16]),
        blocks(
            "letters named in each equation by itself",
            several("0", &["* 0 v7", "* v3 0"], NO_LIMITS),
            &[Ok(zero_mul), Ok(mul_zero)],
        ),
        blocks(
            "seven letters, four in each equation",
            several("v0", &["+ v1 + v2 v3", "+ v4 + v5 v6"], NO_LIMITS),
            &[LOW_NONE, HIGH_NONE],
        ),
    ]
}

/// Nones with a term left unopened below the step limit, and without one.
fn cut() -> Vec<Case> {
    let of_d = |steps, nodes| several("v0", &[D, A], [steps, "7", "3", nodes]);
    let of_letters = |nodes| several("v0", &["v1", A, "v2"], ["2", "3", "1", nodes]);
    let unopened = several("v0", &["v1", "v2"], ["1", "0", "0", "0"]);
    let scarce = Call {
        slots: 3,
        ..of_d("3", "1")
    };
    let nones = |first, second| [first, A_PROVED, second];
    vec![
        blocks("D3 and A", of_d("3", "1"), &[D3_NONE, A_PROVED]),
        blocks("D3 and A, one step", of_d("1", "1"), &[D2_NONE, A_PROVED]),
        blocks("D3 and A, three slots", scarce, &[OUT_OF_SLOTS, A_PROVED]),
        blocks(
            "three letters, all opened",
            of_letters("4"),
            &nones(none!("v0", "v1", "4", "no"), none!("v0", "v2", "4", "no")),
        ),
        blocks(
            "three letters, one left",
            of_letters("3"),
            &nones(none!("v0", "v1", "3", "yes"), none!("v0", "v2", "3", "yes")),
        ),
        blocks(
            "three letters, no nodes",
            unopened,
            &[none!("v0", "v1", "0", "yes"), none!("v0", "v2", "0", "yes")],
        ),
    ]
}

/// Slots and room about what is needed.
fn scarce() -> Vec<Case> {
    let with_slots = |rights: &[&str], slots| Call {
        slots,
        ..several("v0", rights, LIMITS)
    };
    let twice = |slots, room| Call {
        slots,
        room,
        ..several("v0", &[D, D], ["1", "7", "3", "1000"])
    };
    vec![
        blocks(
            "D and A, eight slots",
            with_slots(&[D, A], 8),
            &[D_PROVED, A_PROVED],
        ),
        blocks(
            "D and A, seven slots",
            with_slots(&[D, A], 7),
            &[OUT_OF_SLOTS, A_PROVED],
        ),
        blocks("D2 twice, four slots", twice(4, 1_000), &[D2_NONE; 2]),
        blocks("D2 twice, three slots", twice(3, 1_000), &[OUT_OF_SLOTS; 2]),
        blocks("D2 twice, room for both", twice(3, 48), &[OUT_OF_SLOTS; 2]),
        case("8, a byte too few for both", twice(3, 47), Err(8)),
    ]
}

/// One right side that refuses the whole job, among good ones.
fn refused() -> Vec<Case> {
    let nodes_33 = sum_of("v0", 17);
    let six = "+ v1 + v2 + v3 + v4 + v5 v6";
    let among = |right| several("v0", &[A, right, D], LIMITS);
    vec![
        case("2, one no term", among("+ v0"), Err(2)),
        case("3, one of 33 nodes", among(&nodes_33), Err(3)),
        case("4, seven letters in one equation", among(six), Err(4)),
        case(
            "5, 17 steps",
            several("v0", &[A, D], ["17", "7", "3", "1000"]),
            Err(5),
        ),
        case("6, one equal to left", among("v0"), Err(6)),
        case("9, 17 right sides", several("v0", &[A; 17], LIMITS), Err(9)),
        case(
            "10, one before left",
            several("v1", &["v2", "v0"], NO_LIMITS),
            Err(10),
        ),
        case(
            "one right side before left",
            several("v1", &["v0"], NO_LIMITS),
            ORIENTED_NONE,
        ),
    ]
}

/// Several reasons, of which the first that is looked at counts.
fn ordered() -> Vec<Case> {
    let nodes_33 = sum_of("v0", 17);
    let mut rights = [A; 17];
    rights[16] = "+ v0";
    vec![
        case("9 before 2", several("v0", &rights, LIMITS), Err(9)),
        case(
            "2, the last of sixteen",
            several("v0", &rights[1..], LIMITS),
            Err(2),
        ),
        case(
            "2 of a later side before 3",
            several("v0", &[&nodes_33, "+ v0"], LIMITS),
            Err(2),
        ),
        case(
            "5 before 6",
            several("v1", &["v1", "v0"], ["0", "0", "0", "4097"]),
            Err(5),
        ),
        case(
            "6 before 10",
            several("v1", &["v0", "v1"], NO_LIMITS),
            Err(6),
        ),
    ]
}

/// Right lines in wrong places, and several where one is due.
fn lines() -> Vec<Case> {
    let good = several("v0", &[A, D], LIMITS);
    let with = |order: &[usize]| {
        let lines: Vec<&[u8]> = good.job.split_inclusive(|&byte| byte == b'\n').collect();
        let lines: Vec<&[u8]> = order.iter().map(|&at| lines[at]).collect();
        Call {
            job: lines.concat(),
            ..good.clone()
        }
    };
    let by = |entry| Call {
        entry,
        ..good.clone()
    };
    vec![
        case(
            "1, right behind the limits",
            with(&[0, 1, 3, 4, 5, 6, 2]),
            Err(1),
        ),
        case(
            "1, right among the limits",
            with(&[0, 1, 3, 2, 4, 5, 6]),
            Err(1),
        ),
        case("1, right before left", with(&[1, 0, 2, 3, 4, 5, 6]), Err(1)),
        case("1, no right side", with(&[0, 3, 4, 5, 6]), Err(1)),
        case("1, WORDS of two right sides", by(Entry::Words), Err(1)),
        case("1, RENAME of two right sides", by(Entry::Rename), Err(1)),
    ]
}

fn lengths() -> Vec<Case> {
    let long = |entry, bytes: usize| {
        let call = call(entry, ["", "+ v0 0"], LIMITS);
        let left = "0".repeat(bytes - call.job.len());
        let job = call.job.splitn(2, |&byte| byte == b'\n');
        let job: Vec<&[u8]> = job.collect();
        let job = [job[0], left.as_bytes(), b"\n", job[1]].concat();
        Call { job, ..call }
    };
    let rights: Vec<String> = (100..116).map(largest).collect();
    let rights: Vec<&str> = rights.iter().map(String::as_str).collect();
    let sixteen = several("v0", &rights, NO_LIMITS);
    let due = rights
        .iter()
        .map(|right| format!("answer=none\nleft=v0\nright={right}\nexpanded=0\ncut=no\n"));
    let due = Ok(due.collect());
    vec![
        Case {
            name: "sixteen of 31 nodes, 1,895 bytes",
            call: sixteen,
            due,
        },
        case("FIND, 1,025 bytes", long(Entry::Find, 1_025), Err(2)),
        case("FIND, 4,096 bytes", long(Entry::Find, 4_096), Err(2)),
        case("1, FIND, 4,097 bytes", long(Entry::Find, 4_097), Err(1)),
        case("WORDS, 1,024 bytes", long(Entry::Words, 1_024), Err(2)),
        case("1, WORDS, 1,025 bytes", long(Entry::Words, 1_025), Err(1)),
        case("1, RENAME, 1,025 bytes", long(Entry::Rename, 1_025), Err(1)),
    ]
}

/// A sum of 31 nodes over one letter of three digits.
fn largest(letter: usize) -> String {
    sum_of(&format!("v{letter}"), 16)
}
