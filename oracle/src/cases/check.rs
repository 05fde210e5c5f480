//! Cases for CHECK: chains, and a reason for each refusal.

use super::{Case, Due, case, sum_of};
use crate::{Call, Entry};

const GOOD: Due = Ok("answer=good\n");
const ROOM: usize = 12;

/// The line of case A.
const A: &str = "add_zero_right forward at=. to=+ v0 0";

pub fn cases() -> Vec<Case> {
    let mut all = good();
    all.extend(malformed());
    all.extend(malformed_steps());
    all.extend(no_terms());
    all.extend(large());
    all.extend(many_letters());
    all.extend(no_chains());
    all.extend(ordered());
    all.extend(lengths());
    all
}

fn check(job: Vec<u8>) -> Call {
    Call {
        entry: Entry::Check,
        slots: 0,
        room: ROOM,
        job,
    }
}

/// CHECK of a whole text.
fn text(name: &'static str, text: &str, due: Due) -> Case {
    case(name, check(text.as_bytes().to_vec()), due)
}

/// CHECK of two sides and step lines.
pub fn steps(name: &'static str, [left, right]: [&str; 2], steps: &[&str], due: Due) -> Case {
    let steps = steps.iter().map(|step| format!("step={step}\n"));
    let steps: String = steps.collect();
    text(name, &format!("left={left}\nright={right}\n{steps}"), due)
}

/// The sides of case A with one step line.
fn a(name: &'static str, step: &str, due: Due) -> Case {
    steps(name, ["v0", "+ v0 0"], &[step], due)
}

#[rustfmt::skip]
fn good() -> Vec<Case> {
    let sum_31 = sum_of("v0", 16);
    let deep = format!("{}{}v0", "+ ".repeat(15), "v0 ".repeat(15));
    let at_the_end = |sum: &str, place: &str| format!("add_comm forward at={place} to={sum}");
    vec![
        a("A's line", A, GOOD),
        steps("B's line", ["+ v0 v1", "+ v1 v0"], &["add_comm forward at=. to=+ v1 v0"], GOOD),
        steps("C's line", ["+ * v0 v1 0", "* v0 v1"], &["add_zero_right back at=. to=* v0 v1"], GOOD),
        steps("C's line turned round", ["* v0 v1", "+ * v0 v1 0"], &["add_zero_right forward at=. to=+ * v0 v1 0"], GOOD),
        steps("D's lines", ["v0", "+ 0 v0"], &[A, "add_comm forward at=. to=+ 0 v0"], GOOD),
        steps("E's ends", ["+ v0 0", "+ v0 * 0 v1"], &["zero_mul forward at=r to=+ v0 * 0 v1"], GOOD),
        steps("places below the root", ["+ * v0 + v1 v2 v3", "+ * v0 + v2 v1 * 1 v3"], &[
            "add_comm forward at=lr to=+ * v0 + v2 v1 v3",
            "mul_one_left forward at=r to=+ * v0 + v2 v1 * 1 v3",
        ], GOOD),
        steps("terms brought in", ["+ 0 v1", "+ * * v7 0 v8 v1"], &[
            "zero_mul forward at=l to=+ * 0 v8 v1",
            "mul_zero forward at=ll to=+ * * v7 0 v8 v1",
        ], GOOD),
        steps("large terms brought in and taken away", ["0", "0"], &[
            "mul_zero forward at=. to=* + * v1 v2 * 0 + 1 v3 0",
            "mul_zero back at=. to=0",
        ], GOOD),
        steps("a chain that comes back", ["v0", "v0"], &[
            "mul_one_right forward at=. to=* v0 1",
            "mul_one_right back at=. to=v0",
        ], GOOD),
        steps("a line that gives back its source", ["+ v0 v0", "+ v0 v0"], &["add_comm back at=. to=+ v0 v0"], GOOD),
        steps("left_distrib", ["+ * v0 v1 * v0 v2", "* v0 + v1 v2"], &["left_distrib forward at=. to=* v0 + v1 v2"], GOOD),
        steps("right_distrib back", ["* + v0 v1 v2", "+ * v0 v2 * v1 v2"], &["right_distrib back at=. to=+ * v0 v2 * v1 v2"], GOOD),
        steps("31 nodes, the deepest place to the left", [&deep; 2], &[&at_the_end(&deep, &"l".repeat(14))], GOOD),
        steps("31 nodes, the deepest place to the right", [&sum_31; 2], &[&at_the_end(&sum_31, &"r".repeat(14))], GOOD),
    ]
}

/// Faults of the lines.
#[rustfmt::skip]
fn malformed() -> Vec<Case> {
    let with_a = |tail: &str| format!("left=v0\nright=+ v0 0\nstep={A}{tail}");
    vec![
        text("1, nothing", "", Err(1)),
        text("1, no end of the last line", &with_a(""), Err(1)),
        text("1, something behind", &with_a("\nx"), Err(1)),
        text("1, an empty line behind", &with_a("\n\n"), Err(1)),
        text("1, another key behind", &with_a("\nproof=\n"), Err(1)),
        text("1, byte 0 behind", &with_a("\n\0"), Err(1)),
        text("1, no left side", &format!("right=+ v0 0\nstep={A}\n"), Err(1)),
        text("1, no right side", &format!("left=v0\nstep={A}\n"), Err(1)),
        text("1, two right sides", &format!("left=v0\nright=+ v0 0\nright=+ v0 0\nstep={A}\n"), Err(1)),
        text("1, the sides exchanged", &format!("right=+ v0 0\nleft=v0\nstep={A}\n"), Err(1)),
        text("1, right behind the lines", &format!("left=v0\nstep={A}\nright=+ v0 0\n"), Err(1)),
        text("1, left alone", "left=v0\n", Err(1)),
        text("1, a job", "left=v0\nright=+ v0 0\nsteps=3\nsize=7\ndepth=3\nnodes=1000\n", Err(1)),
        text("1, steps= for step=", &format!("left=v0\nright=+ v0 0\nsteps={A}\n"), Err(1)),
    ]
}

/// Faults in a step line beside its term.
#[rustfmt::skip]
fn malformed_steps() -> Vec<Case> {
    vec![
        a("1, no value", "", Err(1)),
        a("1, no such law", "add_zero forward at=. to=+ v0 0", Err(1)),
        a("1, a law of another name", "add_idem forward at=. to=+ v0 0", Err(1)),
        a("1, a law in capitals", "ADD_ZERO_RIGHT forward at=. to=+ v0 0", Err(1)),
        a("1, no law", "forward at=. to=+ v0 0", Err(1)),
        a("1, an empty law", " forward at=. to=+ v0 0", Err(1)),
        a("1, no such direction", "add_zero_right backward at=. to=+ v0 0", Err(1)),
        a("1, no direction", "add_zero_right at=. to=+ v0 0", Err(1)),
        a("1, no place", "add_zero_right forward to=+ v0 0", Err(1)),
        a("1, an empty place", "add_zero_right forward at= to=+ v0 0", Err(1)),
        a("1, . and a side", "add_zero_right forward at=.l to=+ v0 0", Err(1)),
        a("1, two dots", "add_zero_right forward at=.. to=+ v0 0", Err(1)),
        a("1, no side", "add_zero_right forward at=lx to=+ v0 0", Err(1)),
        a("1, a side in capitals", "add_zero_right forward at=L to=+ v0 0", Err(1)),
        a("1, no at=", "add_zero_right forward . to=+ v0 0", Err(1)),
        a("1, no to=", "add_zero_right forward at=. + v0 0", Err(1)),
        a("1, no to= and no term", "add_zero_right forward at=.", Err(1)),
        a("1, a space for the result", "add_zero_right forward at=. ", Err(1)),
        a("1, two spaces behind the law", "add_zero_right  forward at=. to=+ v0 0", Err(1)),
        a("1, two spaces behind the direction", "add_zero_right forward  at=. to=+ v0 0", Err(1)),
        a("1, two spaces behind the place", "add_zero_right forward at=.  to=+ v0 0", Err(1)),
        a("1, parts exchanged", "forward add_zero_right at=. to=+ v0 0", Err(1)),
    ]
}

#[rustfmt::skip]
fn no_terms() -> Vec<Case> {
    vec![
        steps("2, left no term", ["+ v0", "+ v0 0"], &[A], Err(2)),
        steps("2, right empty, no line", ["v0", ""], &[], Err(2)),
        a("2, a result no term", "add_zero_right forward at=. to=+ v0", Err(2)),
        a("2, an empty result", "add_zero_right forward at=. to=", Err(2)),
        a("2, v1000", "add_zero_right forward at=. to=+ v1000 0", Err(2)),
        a("2, a second space in a result", "add_zero_right forward at=. to=+ v0  0", Err(2)),
        a("2, a space behind to=", "add_zero_right forward at=. to= + v0 0", Err(2)),
        a("2, a space at the line's end", "add_zero_right forward at=. to=+ v0 0 ", Err(2)),
        a("2, byte 13 at the line's end", "add_zero_right forward at=. to=+ v0 0\r", Err(2)),
        a("2, to= twice", "add_zero_right forward at=. to=to=+ v0 0", Err(2)),
    ]
}

#[rustfmt::skip]
fn large() -> Vec<Case> {
    let sum_33 = sum_of("v0", 17);
    vec![
        steps("3, left of 33 nodes", [&sum_33, "+ v0 0"], &[A], Err(3)),
        steps("3, right of 33 nodes", ["v0", &sum_33], &[A], Err(3)),
        steps("3, a result of 33 nodes", ["v0", "+ v0 0"], &[A, &format!("add_comm back at=. to={sum_33}")], Err(3)),
    ]
}

#[rustfmt::skip]
fn many_letters() -> Vec<Case> {
    let six = "+ 0 + + + + + v0 v1 v2 v3 v4 v5";
    let with = |letter: &str| format!("zero_mul forward at=l to=+ * 0 {letter} + + + + + v0 v1 v2 v3 v4 v5");
    let back = format!("zero_mul back at=l to={six}");
    vec![
        steps("six letters", [six; 2], &[&with("v5"), &back], GOOD),
        steps("4, a seventh in a result", [six; 2], &[&with("v6"), &back], Err(4)),
        steps("4, seven in both sides", ["+ + + + + v0 v1 v2 v3 v4 v5", "v6"], &["add_comm forward at=. to=v0"], Err(4)),
    ]
}

#[rustfmt::skip]
fn no_chains() -> Vec<Case> {
    vec![
        steps("11", ["v0", "+ v0 0"], &[], Err(11)),
        steps("11, equal sides", ["v0", "v0"], &[], Err(11)),
        a("12, a place that is not in the term", "add_zero_right forward at=l to=+ v0 0", Err(12)),
        a("12, a place with many sides", &format!("add_zero_right forward at={} to=+ v0 0", "lr".repeat(500)), Err(12)),
        a("12, a law that does not match", "add_comm forward at=. to=+ v0 0", Err(12)),
        a("12, the other direction", "add_zero_right back at=. to=+ v0 0", Err(12)),
        a("12, another result of the law", "add_zero_right forward at=. to=+ v1 0", Err(12)),
        a("12, a result that is the source", "add_zero_right forward at=. to=v0", Err(12)),
        steps("12, the last result is not right", ["v0", "+ 0 v0"], &[A], Err(12)),
        steps("12, right comes up before the end", ["v0", "+ v0 0"], &[A, "add_comm forward at=. to=+ 0 v0"], Err(12)),
        steps("12, no line on the result before", ["v0", "+ v0 0"], &[A, "mul_one_left back at=. to=+ v0 0"], Err(12)),
        steps("12, a line from left, not from the result before", ["v0", "* v0 1"], &[A, "mul_one_right forward at=. to=* v0 1"], Err(12)),
        steps("12, something else is changed, too", ["+ v0 v1", "+ * v0 1 v2"], &["mul_one_right forward at=l to=+ * v0 1 v2"], Err(12)),
        steps("12, a place in the result alone", ["v0", "+ v0 0"], &["add_zero_right back at=r to=+ v0 0"], Err(12)),
        steps("12, another place", ["+ v0 v1", "+ * v0 1 v1"], &["mul_one_right forward at=r to=+ * v0 1 v1"], Err(12)),
        steps("12, a letter that meets two terms", ["+ * v0 v1 * v3 v2", "* v0 + v1 v2"], &["left_distrib forward at=. to=* v0 + v1 v2"], Err(12)),
        steps("12, two terms in the result", ["* + v0 v1 v2", "+ * v0 v2 * v1 v3"], &["right_distrib back at=. to=+ * v0 v2 * v1 v3"], Err(12)),
        steps("12, zero_mul for mul_zero", ["0", "* v1 0"], &["zero_mul forward at=. to=* v1 0"], Err(12)),
        steps("12, a chain turned round", ["+ v0 0", "v0"], &[A], Err(12)),
    ]
}

/// Several reasons, of which the first that is looked at counts; room.
#[rustfmt::skip]
fn ordered() -> Vec<Case> {
    let sum_33 = sum_of("v0", 17);
    let (seven, short) = ("+ + + + + + v0 v1 v2 v3 v4 v5 v6", "add_zero_right forward at=l to=+ v0 0");
    let with_room = |room, step| check_a(step, room);
    vec![
        steps("1 before 2", ["w0", "+ v0 0"], &[A, ""], Err(1)),
        steps("2 before 3", [&sum_33, "+ v0 0"], &[A, "add_comm back at=. to="], Err(2)),
        steps("2 before 11", ["v0", "v"], &[], Err(2)),
        steps("3 before 4 and 11", [&sum_33, seven], &[], Err(3)),
        steps("4 before 11", ["+ + + + + v0 v1 v2 v3 v4 v5", "v6"], &[], Err(4)),
        steps("4 before 12", [seven, "v6"], &[short], Err(4)),
        case("12 before 8", with_room(0, short), Err(12)),
        case("8, no room", with_room(0, A), Err(8)),
        case("8, a byte too few", with_room(11, A), Err(8)),
        case("a byte more", with_room(13, A), GOOD),
    ]
}

fn check_a(step: &str, room: usize) -> Call {
    let text = format!("left=v0\nright=+ v0 0\nstep={step}\n");
    Call {
        room,
        ..check(text.into_bytes())
    }
}

/// Texts about 8,192 bytes: a side of noughts, and 240 lines there and back.
fn lengths() -> Vec<Case> {
    let noughts = |count| format!("left={}\nright=0\n", "0".repeat(count));
    let pair = |brought| {
        format!("step=zero_mul forward at=. to=* 0 {brought}\nstep=zero_mul back at=. to=0\n")
    };
    let pairs = |last| {
        format!(
            "left=0\nright=0\n{}{}",
            pair("v100").repeat(119),
            pair(last)
        )
    };
    vec![
        text("2, 8,192 bytes", &noughts(8_178), Err(2)),
        text("1, 8,193 bytes", &noughts(8_179), Err(1)),
        text(
            "240 lines, 8,192 bytes",
            &pairs("* v100 * v100 * 1 v10"),
            GOOD,
        ),
        text(
            "1, 240 lines, 8,193 bytes",
            &pairs("* v100 * v100 * 1 v100"),
            Err(1),
        ),
    ]
}
