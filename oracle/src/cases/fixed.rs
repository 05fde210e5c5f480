//! Cases for c letters: which texts are such, their order, and what each entry makes of them.

use super::check::steps;
use super::many::{blocks, several};
use super::{A_PROVED, Case, Due, Limits, call, case, find, none, rename, words};
use crate::Entry;

const GOOD: Due = Ok("answer=good\n");
const NO_LIMITS: Limits = ["0"; 4];

const SIX: &str = "+ v0 + v1 + v2 + v3 + v4 v5";

pub fn cases() -> Vec<Case> {
    let mut all = read();
    all.extend(ordered());
    all.extend(counted());
    all.push(sixteen());
    all.extend(renamed());
    all.extend(in_blocks());
    all.extend(checked());
    all
}

#[rustfmt::skip]
fn read() -> Vec<Case> {
    let none = |name, value| words(name, [value, "v0"], Err(2));
    vec![
        words("c0 and c99", ["c99", "c0"], Ok("same=no\nleft=c0\nright=c99\ndiffer=0\n")),
        none("2, c100", "c100"),
        none("2, c00", "c00"),
        none("2, c07", "c07"),
        none("2, c alone", "c"),
        none("2, C1", "C1"),
        none("2, c999", "c999"),
        none("2, c4294967296", "c4294967296"),
        none("2, c and a space", "c 1"),
        none("2, c1c", "c1c"),
        none("2, vc1", "vc1"),
        none("2, v1000 beside c letters", "v1000"),
        none("2, v1099", "v1099"),
        none("2, c100 in a sum", "+ c1 c100"),
        rename("2, RENAME of c100", ["+ c1 c100", "v0"], Err(2)),
    ]
}

/// The order: v letters, c letters, 0; each by number.
#[rustfmt::skip]
fn ordered() -> Vec<Case> {
    let proved = Ok("answer=proved\nleft=+ v7 c2\nright=+ c2 v7\nsteps=1\nexpanded=0\nuses=add_comm\n\
        step=add_comm forward at=. to=+ c2 v7\n\
        proof=(lam x0 (lam x1 (app (app (ref add_comm) (ref x0)) (ref x1))))\n");
    vec![
        find("v999 before c0", ["c0", "v999"], NO_LIMITS, none!("v999", "c0", "0", "no")),
        find("c9 before c10", ["c10", "c9"], NO_LIMITS, none!("c9", "c10", "0", "no")),
        find("c99 before 0", ["0", "c99"], NO_LIMITS, none!("c99", "0", "0", "no")),
        find("c7 before 0, one step", ["0", "c7"], ["1", "0", "0", "0"], none!("c7", "0", "0", "yes")),
        find("named behind v letters", ["+ c2 v7", "+ v7 c2"], NO_LIMITS, proved),
        words("words by number", ["0", "+ c99 * v999 c0"], Ok("same=no\nleft=0\nright=v999 c0;c99\ndiffer=0\n")),
        words("c letters do not commute", ["* c1 c0", "* c0 c1"], Ok("same=no\nleft=c0 c1\nright=c1 c0\ndiffer=0\n")),
        words("equal words", ["+ c1 v1", "+ v1 * 1 c1"], Ok("same=yes\nleft=v1;c1\nright=v1;c1\n")),
        words("parted at a c letter", ["+ c2 v1", "+ c1 v1"], Ok("same=no\nleft=v1;c1\nright=v1;c2\ndiffer=1\n")),
        words("parted at c9 and c10", ["+ c10 c2", "+ c2 c9"], Ok("same=no\nleft=c2;c9\nright=c2;c10\ndiffer=1\n")),
        words("a beginning, then a c letter", ["+ c1 + v1 v1", "+ v1 v1"], Ok("same=no\nleft=v1;v1\nright=v1;v1;c1\ndiffer=2\n")),
    ]
}

/// Refusal 4 counts v letters only.
#[rustfmt::skip]
fn counted() -> Vec<Case> {
    let five = "+ c0 + c1 + c2 + c3 c4";
    let with_c = format!("+ c0 {SIX}");
    let with_seven = format!("+ c0 + {SIX} v6");
    let six_and_ten = "+ v0 + v1 + v2 + v3 + v4 + v5 + c0 + c1 + c2 + c3 + c4 + c5 + c6 + c7 + c8 c9";
    let sixteen = "+ c84 + c85 + c86 + c87 + c88 + c89 + c90 + c91 + c92 + c93 + c94 + c95 + c96 + c97 + c98 c99";
    let all = Ok("same=no\nleft=v0;v1;v2;v3;v4;v5;c0;c1;c2;c3;c4;c5;c6;c7;c8;c9\n\
        right=c84;c85;c86;c87;c88;c89;c90;c91;c92;c93;c94;c95;c96;c97;c98;c99\ndiffer=0\n");
    vec![
        words("two v letters and five c letters", [five, "+ v0 v1"], Ok("same=no\nleft=v0;v1\nright=c0;c1;c2;c3;c4\ndiffer=0\n")),
        words("six v letters and one c letter", [&with_c, "0"], Ok("same=no\nleft=0\nright=v0;v1;v2;v3;v4;v5;c0\ndiffer=0\n")),
        words("4, seven v letters and one c letter", [&with_seven, "0"], Err(4)),
        words("4, the seventh v letter on the other side", [&with_c, "* c1 v6"], Err(4)),
        words("32 letters", [sixteen, six_and_ten], all),
        words("4, 32 letters, seven v letters", [&sixteen.replace("c84", "v6"), six_and_ten], Err(4)),
        words("3 before 4", [&format!("+ v6 {sixteen}"), six_and_ten], Err(3)),
    ]
}

/// The proof text names sixteen letters, x0 to x15.
fn sixteen() -> Case {
    let names = (0..6).map(|number| format!("v{number}"));
    let names = names.chain((0..10).map(|number| format!("c{number}")));
    let names: Vec<String> = names.collect();
    let rest = format!("+ {} {}", names[1..15].join(" + "), names[15]);
    let (left, right) = (format!("+ v0 {rest}"), format!("+ {rest} v0"));
    let others = (1..15).map(|at| format!("(app (app (ref add) (ref x{at})) "));
    let sum = others.collect::<String>() + "(ref x15)" + &")".repeat(14);
    let binders = (0..16).map(|at| format!("(lam x{at} "));
    let binders: String = binders.collect();
    let proof = format!(
        "{binders}(app (app (ref add_comm) (ref x0)) {sum}){}",
        ")".repeat(16)
    );
    let due = Ok(format!(
        "answer=proved\nleft={left}\nright={right}\nsteps=1\nexpanded=0\nuses=add_comm\n\
        step=add_comm forward at=. to={right}\nproof={proof}\n"
    ));
    let call = call(Entry::Find, [&right, &left], NO_LIMITS);
    let name = "sixteen letters in a proof";
    Case { name, call, due }
}

/// RENAME keeps c letters, in terms and in words.
#[rustfmt::skip]
fn renamed() -> Vec<Case> {
    vec![
        rename("a c letter kept", ["* c5 v2", "v2"], Ok("left=v0\nright=* c5 v0\nwleft=v0\nwright=c5 v0\n")),
        rename("another one kept", ["* c6 v2", "v2"], Ok("left=v0\nright=* c6 v0\nwleft=v0\nwright=c6 v0\n")),
        rename("words ordered otherwise", ["* v5 c2", "c2"], Ok("left=c2\nright=* v0 c2\nwleft=v0 c2\nwright=c2\n")),
        rename("two v letters", ["* v7 c0", "* c0 v3"], Ok("left=* v0 c0\nright=* c0 v1\nwleft=v0 c0\nwright=c0 v1\n")),
        rename("no v letter", ["c9", "c3"], Ok("left=c3\nright=c9\nwleft=c3\nwright=c9\n")),
        rename("words agree", ["+ c1 0", "c1"], Ok("left=c1\nright=+ c1 0\nwleft=-\nwright=-\n")),
        rename("a v letter lost", ["+ v9 * 0 v1", "c4"], Ok("left=c4\nright=+ v0 * 0 v1\nwleft=v0\nwright=c4\n")),
        rename("a c letter lost", ["+ v9 * 0 c8", "c4"], Ok("left=c4\nright=+ v0 * 0 c8\nwleft=v0\nwright=c4\n")),
    ]
}

/// Several right sides: 10 by the order of letters, 4 by the v letters of each equation.
#[rustfmt::skip]
fn in_blocks() -> Vec<Case> {
    let none_c0 = none!("v0", "c0", "0", "no");
    let (with_c, with_v) = (format!("+ c0 {SIX}"), format!("+ c0 + {SIX} v6"));
    vec![
        blocks("a c letter behind left", several("v0", &["c0", "+ v0 0"], NO_LIMITS), &[none_c0, A_PROVED]),
        case("10, a v letter before a c letter", several("c0", &["0", "v999"], NO_LIMITS), Err(10)),
        case("10, a c letter before 0", several("0", &["1", "c99"], NO_LIMITS), Err(10)),
        case("4, seven v letters in one equation", several("v0", &[&with_c, &with_v], NO_LIMITS), Err(4)),
        case("2, c100 in one right side", several("v0", &[&with_c, "c100"], NO_LIMITS), Err(2)),
    ]
}

#[rustfmt::skip]
fn checked() -> Vec<Case> {
    let zero = format!("+ 0 {SIX}");
    let with = |letter: &str| format!("zero_mul forward at=l to=+ * 0 {letter} {SIX}");
    let back = format!("zero_mul back at=l to={zero}");
    vec![
        steps("a c letter", ["c5", "+ c5 0"], &["add_zero_right forward at=. to=+ c5 0"], GOOD),
        steps("a c letter brought in", ["0", "* 0 c99"], &["zero_mul forward at=. to=* 0 c99"], GOOD),
        steps("two c letters exchanged", ["+ c0 c1", "+ c1 c0"], &["add_comm forward at=. to=+ c1 c0"], GOOD),
        steps("12, another c letter", ["+ c0 c1", "+ c1 c2"], &["add_comm forward at=. to=+ c1 c2"], Err(12)),
        steps("12, a c letter for a v letter", ["v5", "+ c5 0"], &["add_zero_right forward at=. to=+ c5 0"], Err(12)),
        steps("2, c100 in a result", ["0", "0"], &["zero_mul forward at=. to=* 0 c100"], Err(2)),
        steps("six v letters and a c letter", [&zero; 2], &[&with("c5"), &back], GOOD),
        steps("4, six v letters, a c letter and a v letter", [&zero; 2], &[&with("* c5 v6"), &back], Err(4)),
    ]
}
