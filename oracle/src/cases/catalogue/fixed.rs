//! Lists of calls with c letters.

use super::{Play, play, put, withdraw};

pub fn plays() -> Vec<Play> {
    vec![raw_kinds(), word_kinds(), refused()]
}

/// Entries that differ in a c letter are of two kinds, whatever their v letters and whichever side comes first.
#[rustfmt::skip]
fn raw_kinds() -> Play {
    play("kinds of raw keys with c letters", vec![
        put(1, "raw", ["* c1 v0", "v0"], 101),
        put(2, "raw", ["* c2 v0", "v0"], 102),
        put(3, "raw", ["v9", "* c1 v9"], 102),
        put(4, "raw", ["* v1 v0", "v0"], 103),
        put(5, "raw", ["c0", "c1"], 104),
        put(6, "raw", ["c1", "c0"], 104),
        put(7, "raw", ["c0", "c2"], 105),
        put(8, "raw", ["v0", "c0"], 106),
        put(9, "raw", ["c0", "v7"], 106),
        put(10, "raw", ["v0", "v1"], 107),
        put(11, "raw", ["* c99 c0", "0"], 108),
        put(12, "raw", ["* c0 c99", "0"], 109),
        withdraw(1, 109),
        withdraw(2, 108),
        withdraw(3, 107),
        withdraw(5, 107),
        withdraw(7, 106),
        withdraw(6, 105),
        withdraw(8, 105),
        withdraw(10, 104),
        withdraw(9, 103),
        withdraw(4, 102),
        withdraw(11, 101),
        withdraw(12, 100),
    ])
}

/// Under word keys likewise; a c letter that no word has makes no difference, nor do words that agree.
#[rustfmt::skip]
fn word_kinds() -> Play {
    play("kinds of word keys with c letters", vec![
        put(1, "words", ["* c1 v0", "v0"], 101),
        put(2, "words", ["* c2 v0", "v0"], 102),
        put(3, "words", ["v5", "+ 0 * c2 v5"], 102),
        put(4, "words", ["* 0 c1", "v0"], 103),
        put(5, "words", ["* 0 c2", "v4"], 103),
        put(6, "words", ["* 0 c1", "c3"], 104),
        put(7, "words", ["c0", "+ c0 0"], 105),
        put(8, "words", ["c1", "* 1 c1"], 105),
        put(9, "words", ["v1", "* 1 v1"], 105),
        put(10, "raw", ["* c2 v0", "v0"], 106),
        withdraw(1, 105),
        withdraw(2, 105),
        withdraw(3, 104),
        withdraw(7, 104),
        withdraw(8, 104),
        withdraw(9, 103),
        withdraw(4, 103),
        withdraw(5, 102),
        withdraw(6, 101),
        withdraw(10, 100),
    ])
}

/// What is no c letter, and v letters counted alone.
#[rustfmt::skip]
fn refused() -> Play {
    let six = "+ v0 + v1 + v2 + v3 + v4 v5";
    let (with_c, with_v) = (format!("+ c0 {six}"), format!("+ c0 + {six} v6"));
    let mut calls = Vec::new();
    for key in ["raw", "words"] {
        calls.extend([
            put(1, key, ["c100", "v0"], 2),
            put(1, key, ["v0", "c00"], 2),
            put(1, key, ["v0", "c"], 2),
            put(1, key, ["v1000", "c0"], 2),
            put(1, key, [&with_v, "0"], 4),
            put(1, key, ["c7", "c7"], 6),
            put(1, key, [&with_c, "+ c1 + c2 + c3 c4"], 101),
            put(1, key, ["c0", "c1"], 13),
            withdraw(1, 100),
        ]);
    }
    play("refusals with c letters", calls)
}
