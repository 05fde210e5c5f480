//! Cases for SAME: counts that differ, counts that agree with lists that differ, the same words, the room for each line,
//! and the refusals.

use super::many::several;
use super::parted::product;
use super::{Case, Due, LIMITS, Limits, call, case, sum_of};
use crate::plain::same::{NO, YES};
use crate::{Call, Entry};

const IS_SAME: Due = Ok(YES);
const IS_NOT: Due = Ok(NO);

const A: [&str; 2] = ["v0", "+ v0 0"];
const F: &str = "* + v0 1 + v1 0";
const SEVEN: &str = "+ v0 + v1 + v2 + v3 + v4 + v5 v6";

pub fn cases() -> Vec<Case> {
    let mut all = counted();
    all.extend(listed());
    all.extend(alike());
    all.extend(most());
    all.extend(in_room());
    all.extend(refused());
    all.extend(ordered());
    all
}

/// SAME takes no workspace.
fn asked(sides: [&str; 2], limits: Limits) -> Call {
    Call {
        slots: 0,
        ..call(Entry::Same, sides, limits)
    }
}

fn same(name: &'static str, sides: [&str; 2], due: Due) -> Case {
    case(name, asked(sides, LIMITS), due)
}

/// The counts of words differ.
#[rustfmt::skip]
fn counted() -> Vec<Case> {
    vec![
        same("two words and three", ["+ v0 v1", "+ v0 + v1 v1"], IS_NOT),
        same("three words and two", ["+ v0 + v1 v1", "+ v0 v1"], IS_NOT),
        same("two words and one", [F, "* v0 v1"], IS_NOT),
        same("no word and one", ["* 0 + v0 v1", "v0"], IS_NOT),
        same("one word and none", ["v0", "0"], IS_NOT),
        same("the empty word and none", ["1", "* 1 0"], IS_NOT),
        same("four words and two times none", ["* + v0 v1 + v0 v1", "* + v0 v1 0"], IS_NOT),
        same("six words and five", ["* + v0 v1 + v0 + v1 v2", "+ v0 + v1 * v2 + v0 + v1 v2"], IS_NOT),
        same("a repeat more", ["+ v0 v0", "v0"], IS_NOT),
    ]
}

/// The counts agree, the lists do not.
#[rustfmt::skip]
fn listed() -> Vec<Case> {
    vec![
        same("F and G", [F, "+ 1 1"], IS_NOT),
        same("two letters", ["v0", "v1"], IS_NOT),
        same("a letter and the empty word", ["v0", "1"], IS_NOT),
        same("letters in another order", ["* v0 v1", "* v1 v0"], IS_NOT),
        same("another first word", ["+ v2 v1", "+ v0 v2"], IS_NOT),
        same("another last word", ["+ v0 * v1 v2", "+ v0 * v1 v3"], IS_NOT),
        same("another repeat", ["+ v1 + v0 v1", "+ v0 + v0 v1"], IS_NOT),
        same("a word that begins the other", ["+ v0 * v1 v0", "+ v0 v1"], IS_NOT),
        same("words divided elsewhere", ["+ * v0 v1 v2", "+ v0 * v1 v2"], IS_NOT),
        same("factors exchanged", ["* + v0 v1 + v0 v2", "* + v0 v2 + v0 v1"], IS_NOT),
        same("two c letters", ["+ v0 c9", "+ c10 v0"], IS_NOT),
        same("a v letter and a c letter", ["c0", "v0"], IS_NOT),
    ]
}

/// The same words.
#[rustfmt::skip]
fn alike() -> Vec<Case> {
    vec![
        same("F, the same words", [F, "+ v1 * v0 v1"], IS_SAME),
        same("G, the same words", ["+ 1 1", "+ 1 * 1 1"], IS_SAME),
        same("a sum turned", ["+ v1 v0", "+ v0 v1"], IS_SAME),
        same("no words", ["0", "* 0 v3"], IS_SAME),
        same("no words in all products", ["+ * 0 v0 * v1 0", "* 0 + v0 v1"], IS_SAME),
        same("the empty word", ["1", "* 1 + 0 1"], IS_SAME),
        same("a product of three", ["* * v0 v1 v2", "* v0 * v1 v2"], IS_SAME),
        same("repeats", ["* + 1 1 v0", "+ v0 v0"], IS_SAME),
        same("multiplied out", ["* + v0 v1 + v0 v1", "+ + * v1 v1 * v0 v1 + * v1 v0 * v0 v0"], IS_SAME),
        same("c letters", ["+ c1 v1", "+ v1 * 1 c1"], IS_SAME),
    ]
}

/// Up to 324 words.
fn most() -> Vec<Case> {
    let changed = |last| format!("* + v0 + v1 + v2 {last} {}", product(&[3, 3, 3, 3]));
    let of = |name, sides: [String; 2], due| same(name, sides.each_ref().map(String::as_str), due);
    vec![
        of(
            "324 words and 288",
            [product(&[4, 3, 3, 3, 3]), product(&[4, 4, 3, 3, 2])],
            IS_NOT,
        ),
        of(
            "99 words and 100",
            [
                format!("* {} + 1 {}", sum_of("1", 3), product(&[4, 4, 2])),
                product(&[5, 5, 4]),
            ],
            IS_NOT,
        ),
        of("243 of 324 words", [changed("v4"), changed("v3")], IS_NOT),
        of(
            "324 words, the same",
            [product(&[4, 3, 3, 3, 3]), product(&[3, 3, 3, 3, 4])],
            IS_SAME,
        ),
    ]
}

/// 8 bytes hold a no, 9 a yes.
fn in_room() -> Vec<Case> {
    let of = |sides, room| Call {
        room,
        ..asked(sides, LIMITS)
    };
    let counts = |room| of(["v0", "+ v0 v1"], room);
    let lists = |room| of(["v0", "v1"], room);
    let yes = |room| of(["v0", "* v0 1"], room);
    let words = Call {
        entry: Entry::Words,
        ..lists(8)
    };
    vec![
        case("8 bytes for other counts", counts(8), IS_NOT),
        case("8, 7 bytes for other counts", counts(7), Err(8)),
        case("8, no room for other counts", counts(0), Err(8)),
        case("8 bytes for other lists", lists(8), IS_NOT),
        case("8, 7 bytes for other lists", lists(7), Err(8)),
        case("8, no room for other lists", lists(0), Err(8)),
        case("9 bytes for the same words", yes(9), IS_SAME),
        case("8, 8 bytes for the same words", yes(8), Err(8)),
        case("8, no room for the same words", yes(0), Err(8)),
        case("10 bytes for the same words", yes(10), IS_SAME),
        case("8, WORDS in the room of SAME", words, Err(8)),
    ]
}

/// A reason for each refusal, room enough.
#[rustfmt::skip]
fn refused() -> Vec<Case> {
    let with = |limits| asked(A, limits);
    let good = with(LIMITS);
    let text = |job: &[u8]| Call { job: job.to_vec(), ..good.clone() };
    let two = several("v0", &["v1", A[1]], LIMITS).job;
    let bytes = asked(["", A[1]], LIMITS).job.len();
    let long = |length: usize| "0".repeat(length - bytes);
    vec![
        case("1, no text", text(b""), Err(1)),
        case("1, no last byte 10", text(&good.job[..good.job.len() - 1]), Err(1)),
        case("1, two right sides", text(&two), Err(1)),
        same("1, 1,025 bytes", [&long(1_025), A[1]], Err(1)),
        same("2, 1,024 bytes", [&long(1_024), A[1]], Err(2)),
        same("2, a sum short of a part", ["+ v0", "v0"], Err(2)),
        same("2, c100", ["c100", "v0"], Err(2)),
        same("3, 33 nodes", [&sum_of("v0", 17), "v0"], Err(3)),
        same("31 nodes", [&sum_of("v0", 16), "v0"], IS_NOT),
        same("4, seven letters", [SEVEN, "0"], Err(4)),
        same("six v letters and a c letter", [&SEVEN.replace("v6", "c6"), "0"], IS_NOT),
        case("5, 17 steps", with(["17", "7", "3", "1000"]), Err(5)),
        case("5, 4,097 nodes", with(["3", "7", "3", "4097"]), Err(5)),
        case("limits at their bounds", with(["16", "31", "15", "4096"]), IS_SAME),
        same("6, equal sides", ["v0", "v0"], Err(6)),
    ]
}

/// Several reasons and no room. The first that is looked at counts, and room is looked at last.
fn ordered() -> Vec<Case> {
    const HIGH: Limits = ["17", "0", "0", "0"];
    const MALFORMED: Limits = ["03", "0", "0", "0"];
    let no_room = |name, sides, limits, number| {
        let call = asked(sides, limits);
        case(name, Call { room: 0, ..call }, Err(number))
    };
    let nodes_33 = sum_of("v0", 17);
    vec![
        no_room("1 before 2", ["+ v0", "v0"], MALFORMED, 1),
        no_room("2 before 3", [&nodes_33, "+ v0"], HIGH, 2),
        no_room("3 before 4", [&nodes_33, SEVEN], HIGH, 3),
        no_room("4 before 5", [SEVEN, SEVEN], HIGH, 4),
        no_room("5 before 6", ["v0", "v0"], HIGH, 5),
        no_room("6 before 8", ["v0", "v0"], LIMITS, 6),
    ]
}
