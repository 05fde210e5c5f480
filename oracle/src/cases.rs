//! The documents' cases, each with the answer that is due.

pub mod catalogue;
mod check;
mod fixed;
mod many;
mod parted;
mod same;
mod weigh;

use crate::plain::job;
use crate::{About, Call, Entry, Given, PROGRAM_ROOM, PROGRAM_SLOTS, checked};

pub struct Case {
    pub name: &'static str,
    pub call: Call,
    pub due: Result<String, u8>,
}

impl Case {
    /// What is due.
    pub fn given(&self) -> Given {
        self.due.clone().map(String::into_bytes)
    }

    /// Nothing if the case holds, else what came instead.
    pub fn fault(&self) -> Option<String> {
        match checked::answer(&self.call) {
            Err(difference) => Some(difference.to_string()),
            Ok(given) => {
                let due = self.given();
                (given != due).then(|| {
                    let (given, due) = (checked::show(&given), checked::show(&due));
                    format!("--- given\n{given}--- due\n{due}")
                })
            }
        }
    }
}

type Due = Result<&'static str, u8>;
type Limits = [&'static str; 4];

const LIMITS: Limits = ["3", "7", "3", "1000"];

fn call(entry: Entry, sides: [&str; 2], limits: Limits) -> Call {
    let [left, right] = sides;
    let [steps, size, depth, nodes] = limits;
    Call {
        entry,
        slots: PROGRAM_SLOTS,
        room: PROGRAM_ROOM,
        job: job::write(&[left, right, steps, size, depth, nodes]),
    }
}

fn words(name: &'static str, sides: [&str; 2], due: Due) -> Case {
    case(name, call(Entry::Words, sides, LIMITS), due)
}

fn rename(name: &'static str, sides: [&str; 2], due: Due) -> Case {
    case(name, call(Entry::Rename, sides, LIMITS), due)
}

fn case(name: &'static str, call: Call, due: Due) -> Case {
    let due = due.map(str::to_owned);
    Case { name, call, due }
}

fn find(name: &'static str, sides: [&str; 2], limits: Limits, due: Due) -> Case {
    case(name, call(Entry::Find, sides, limits), due)
}

const A: [&str; 2] = ["v0", "+ v0 0"];
const B: [&str; 2] = ["+ v0 v1", "+ v1 v0"];
const C: [&str; 2] = ["* v0 v1", "+ * v0 v1 0"];
const D: [&str; 2] = ["v0", "+ 0 v0"];
const E: [&str; 2] = ["+ v0 0", "+ v0 * 0 v1"];
/// Three lines lead from v0 to terms of size 3, none to v1.
const LETTERS: [&str; 2] = ["v0", "v1"];

const A_PROVED: Due = Ok(
    "answer=proved\nleft=v0\nright=+ v0 0\nsteps=1\nexpanded=0\n\
    uses=add_zero_right\nstep=add_zero_right forward at=. to=+ v0 0\n\
    proof=(lam x0 (app (ref add_zero_right) (ref x0)))\n",
);

const B_PROVED: Due = Ok(
    "answer=proved\nleft=+ v0 v1\nright=+ v1 v0\nsteps=1\nexpanded=0\n\
    uses=add_comm\nstep=add_comm forward at=. to=+ v1 v0\n\
    proof=(lam x0 (lam x1 (app (app (ref add_comm) (ref x0)) (ref x1))))\n",
);

const C_PROVED: Due = Ok(
    "answer=proved\nleft=+ * v0 v1 0\nright=* v0 v1\nsteps=1\nexpanded=1\n\
    uses=add_zero_right\nstep=add_zero_right back at=. to=* v0 v1\n\
    proof=(lam x0 (lam x1 (app (app (app (ref eq_symm) \
    (app (app (ref mul) (ref x0)) (ref x1))) \
    (app (app (ref add) (app (app (ref mul) (ref x0)) (ref x1))) (ref zeroA))) \
    (app (ref add_zero_right) (app (app (ref mul) (ref x0)) (ref x1))))))\n",
);

const D_PROVED: Due = Ok(
    "answer=proved\nleft=v0\nright=+ 0 v0\nsteps=2\nexpanded=2\n\
    uses=add_comm,add_zero_right\n\
    step=add_zero_right forward at=. to=+ v0 0\n\
    step=add_comm forward at=. to=+ 0 v0\n\
    proof=(lam x0 (app (app (app (app (app (ref eq_trans) (ref x0)) \
    (app (app (ref add) (ref x0)) (ref zeroA))) \
    (app (app (ref add) (ref zeroA)) (ref x0))) \
    (app (ref add_zero_right) (ref x0))) \
    (app (app (ref add_comm) (ref x0)) (ref zeroA))))\n",
);

/// A none with these sides, expanded and cut.
#[rustfmt::skip]
macro_rules! none {
    ($left:literal, $right:literal, $expanded:literal, $cut:literal) => {
        Ok(concat!(
            "answer=none\nleft=", $left, "\nright=", $right,
            "\nexpanded=", $expanded, "\ncut=", $cut, "\n"
        ))
    };
}

use none;

/// The cases about these, or about all if none is said: those of document 01 with the examples of its table of
/// refusals and of where lists part, those for several right sides, those for CHECK, those with c letters, those for
/// SAME, those for WEIGH, and those for WEIGH where nodes run out.
pub fn cases(about: &[About]) -> Vec<Case> {
    let is_meant = |one: About| one.is_among(about);
    let mut all = Vec::new();
    if is_meant(About::One) {
        all.extend(searched());
        all.extend(listed());
        all.extend(refused());
        all.extend(bounds());
        all.extend(parted::cases());
    }
    if is_meant(About::Many) {
        all.extend(many::cases());
    }
    if is_meant(About::Check) {
        all.extend(check::cases());
    }
    if is_meant(About::Fixed) {
        all.extend(fixed::cases());
    }
    if is_meant(About::Same) {
        all.extend(same::cases());
    }
    if is_meant(About::Weigh) {
        all.extend(weigh::cases());
    }
    if is_meant(About::AtMost) {
        all.extend(weigh::atmost::cases());
    }
    all
}

#[rustfmt::skip]
fn searched() -> Vec<Case> {
    const C_NONE_CUT: Due = none!("+ * v0 v1 0", "* v0 v1", "0", "yes");
    vec![
        find("A", A, LIMITS, A_PROVED),
        find("A, limits 0", A, ["0"; 4], A_PROVED),
        find("B", B, LIMITS, B_PROVED),
        find("C", C, LIMITS, C_PROVED),
        find("C, small limits", C, ["1", "3", "1", "1"], C_PROVED),
        find("C2", C, ["3", "2", "3", "1000"], none!("+ * v0 v1 0", "* v0 v1", "1", "no")),
        find("C2, small limits", C, ["1", "2", "1", "1"], none!("+ * v0 v1 0", "* v0 v1", "1", "no")),
        find("C3", C, ["3", "7", "3", "0"], C_NONE_CUT),
        find("C3, small limits", C, ["1", "3", "1", "0"], C_NONE_CUT),
        find("C3, no steps", C, ["0", "7", "3", "0"], none!("+ * v0 v1 0", "* v0 v1", "0", "no")),
        find("D", D, LIMITS, D_PROVED),
        case("D, eight slots", Call { slots: 8, ..call(Entry::Find, D, LIMITS) }, D_PROVED),
        find("D2", D, ["1", "7", "3", "1000"], none!("v0", "+ 0 v0", "1", "no")),
        find("D3", D, ["3", "7", "3", "1"], none!("v0", "+ 0 v0", "1", "yes")),
        find("D3, one step", D, ["1", "7", "3", "1"], none!("v0", "+ 0 v0", "1", "no")),
        find("two letters, all opened", LETTERS, ["2", "3", "1", "4"], none!("v0", "v1", "4", "no")),
        find("two letters, one left", LETTERS, ["2", "3", "1", "3"], none!("v0", "v1", "3", "yes")),
        find("E", E, ["1", "7", "3", "1000"], none!("+ v0 0", "+ v0 * 0 v1", "1", "no")),
    ]
}

#[rustfmt::skip]
fn listed() -> Vec<Case> {
    const F: &str = "* + v0 1 + v1 0";
    vec![
        words("F and G", [F, "+ 1 1"], Ok("same=no\nleft=1;1\nright=v0 v1;v1\ndiffer=0\n")),
        words("F, equal words", [F, "+ v1 * v0 v1"], Ok("same=yes\nleft=v0 v1;v1\nright=v0 v1;v1\n")),
        words("G, equal words", ["+ 1 1", "+ 1 * 1 1"], Ok("same=yes\nleft=1;1\nright=1;1\n")),
        rename("H", ["* v5 v2", "v2"], Ok("left=v0\nright=* v1 v0\nwleft=v0\nwright=v1 v0\n")),
    ]
}

#[rustfmt::skip]
fn refused() -> Vec<Case> {
    let find_a = || call(Entry::Find, A, LIMITS);
    let find_d = || call(Entry::Find, D, LIMITS);
    let seven = "+ v0 + v1 + v2 + v3 + v4 + v5 v6";
    vec![
        case("1, empty input", Call { job: Vec::new(), ..find_a() }, Err(1)),
        find("2, a sum short of a part", ["+ v0", "v0"], LIMITS, Err(2)),
        find("3, 33 nodes", [&sum_of("v0", 17), "v0"], LIMITS, Err(3)),
        find("4, seven letters", [seven, "0"], LIMITS, Err(4)),
        find("5, 17 steps", A, ["17", "7", "3", "1000"], Err(5)),
        find("6, equal sides", ["v0", "v0"], LIMITS, Err(6)),
        case("7, D with 7 slots", Call { slots: 7, ..find_d() }, Err(7)),
        case("8, A with no room", Call { room: 0, ..find_a() }, Err(8)),
    ]
}

fn bounds() -> Vec<Case> {
    let proved = Ok(
        "answer=proved\nleft=v999\nright=+ v999 0\nsteps=1\nexpanded=0\n\
        uses=add_zero_right\nstep=add_zero_right forward at=. to=+ v999 0\n\
        proof=(lam x0 (app (ref add_zero_right) (ref x0)))\n",
    );
    let sixteen = Ok("same=no\nleft=v0\n\
        right=v0;v0;v0;v0;v0;v0;v0;v0;v0;v0;v0;v0;v0;v0;v0;v0\ndiffer=1\n");
    vec![
        words("31 nodes", [&sum_of("v0", 16), "v0"], sixteen),
        words("33 nodes", [&sum_of("v0", 17), "v0"], Err(3)),
        find("v999", ["v999", "+ v999 0"], LIMITS, proved),
        find("v1000", ["v1000", "+ v1000 0"], LIMITS, Err(2)),
    ]
}

/// The item summed this often.
fn sum_of(item: &str, count: usize) -> String {
    format!("+ {item} ").repeat(count - 1) + item
}
