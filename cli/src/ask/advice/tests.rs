use puvainy::{Entry, Room};

use super::super::blocks::blocks;
use super::*;

/// One row for FIND and one for WEIGH, whose first limit is the cost.
#[test]
fn the_guide_shows_the_advice() {
    let guide = include_str!("../../../../docs/guide.md").to_lowercase();
    for advice in ADVICE {
        let begin = format!("| `{}` | {}", advice.last, advice.why);
        let rows = guide.lines().filter(|line| line.starts_with(&begin));
        let shown = rows.map(|row| row.rsplit(" | ").next().unwrap().replace('`', ""));
        let due = ["steps", "cost"].map(|first| {
            let keys = advice
                .raise
                .iter()
                .map(|&place| [first, "size", "depth", "nodes"][place]);
            format!("raise {} |", joined(&keys.collect::<Vec<_>>(), "or"))
        });
        assert_eq!(shown.collect::<Vec<_>>(), due);
    }
}

/// What is said of the answer to a job with these sides and limits.
fn said(sides: &str, limits: [usize; 4], slots: usize, answer: &str) -> String {
    let [steps, size, depth, nodes] = limits;
    let job = format!("{sides}steps={steps}\nsize={size}\ndepth={depth}\nnodes={nodes}\n");
    let asking = Asking {
        entry: Entry::Find,
        slots,
        room: Room::Grows,
        names: Names::read(b"v0 Orders\n").unwrap(),
    };
    let job = Job::new(Entry::Find, job.as_bytes());
    sentences("a.job", &job, &blocks(answer.as_bytes()), &asking).join("\n")
}

const SIDES: &str = "left=v1\nright=v0\n";
const SHOWN: &str = "\nleft: Orders\nright: v1";
const ASK: &str = "ask puvainy words whether the plans are equal at all";
const ASK_EACH: &str =
    "ask puvainy words, one right side to a job, whether the plans are equal at all";

/// What is said of a none with these limits and this last line.
fn none(limits: [usize; 4], last: &str) -> String {
    let answer = format!("answer=none\nleft=v0\nright=v1\nexpanded=3\n{last}\n");
    said(SIDES, limits, 400, &answer)
}

#[test]
fn only_limits_below_their_bounds_are_to_be_raised() {
    let told = |why: &str, to_do: &str| format!("a.job: none: {why}; {to_do}{SHOWN}");
    let ended = |to_do: &str| told("nothing was left to open", to_do);
    let all = format!("raise steps, size or depth, or {ASK}");
    assert_eq!(none([3, 9, 4, 4096], "cut=no"), ended(&all));
    assert_eq!(none([3, 9, 4, 3], "cut=no"), ended(&all));
    let depth = format!("raise depth, or {ASK}");
    assert_eq!(none([16, 31, 4, 10], "cut=no"), ended(&depth));
    let no = format!("no limit that helps can be raised: {ASK}, or go by a plan in between");
    assert_eq!(none([16, 31, 15, 10], "cut=no"), ended(&no));
    let ran_out = |to_do: &str| told("nodes ran out with a term still to open", to_do);
    let nodes = format!("raise nodes, or {ASK}");
    assert_eq!(none([3, 9, 4, 3], "cut=yes"), ran_out(&nodes));
    assert_eq!(none([16, 31, 15, 4095], "cut=yes"), ran_out(&nodes));
}

/// What is said where nodes ran out and cannot be raised, with this to do before WORDS is asked.
fn stuck(narrow: &str, ask: &str) -> String {
    format!(
        "none: nodes ran out with a term still to open; no limit that helps can be raised: \
         {narrow}{ask}, or go by a plan in between"
    )
}

#[test]
fn where_nodes_cannot_be_raised_size_and_depth_are_to_be_narrowed() {
    let narrow = "narrow size or depth as far as the plans allow, ";
    assert_eq!(
        none([3, 9, 4, 4096], "cut=yes"),
        format!("a.job: {}{SHOWN}", stuck(narrow, ASK))
    );
}

#[test]
fn size_and_depth_are_to_be_narrowed_only_where_both_plans_allow() {
    let (atom, chain, full) = ("v0", "* v0 + v1 v2", "+ * v0 v1 * v0 v2");
    let both = &["size", "depth"][..];
    for (left, right, size, depth, keys) in [
        (chain, chain, 7, 3, both),
        (chain, chain, 7, 2, &["size"]),
        // A term has an odd number of nodes, and none of 5 is deeper than this one.
        (chain, chain, 6, 15, &[]),
        (full, full, 7, 3, &["depth"]),
        // No term of depth 2 has more nodes than this one.
        (full, full, 31, 2, &[]),
        // The larger of both plans counts.
        (atom, full, 7, 2, &[]),
        (full, atom, 7, 2, &[]),
        (atom, full, 9, 3, both),
        (full, atom, 9, 3, both),
        // Limits that are narrower than a plan.
        (atom, full, 5, 2, &[]),
        (full, atom, 0, 0, &[]),
    ] {
        let sides = format!("left={left}\nright={right}\n");
        let answer = "answer=none\nexpanded=4096\ncut=yes\n";
        let narrow = match keys {
            [] => String::new(),
            keys => format!("narrow {} as far as the plans allow, ", joined(keys, "or")),
        };
        assert_eq!(
            said(&sides, [16, size, depth, 4096], 400, answer),
            format!("a.job: {}", stuck(&narrow, ASK)),
            "{sides}{size} {depth}"
        );
    }
}

/// Each right side by itself: one that leaves room is enough.
#[test]
fn of_several_right_sides_those_told_decide_what_is_to_be_narrowed() {
    let none = "answer=none\nleft=v0\nright=v1\nexpanded=4096\ncut=yes\n";
    let proved = "answer=proved\nleft=v0\nright=v3\nsteps=1\n";
    let told = |size, depth, answer: [&str; 4]| {
        let limits = [3, size, depth, 4096];
        let said = said(FOUR, limits, 400, &answer.concat());
        said.lines().next().unwrap().to_owned()
    };
    let due =
        |rights: &str, narrow: &str| format!("a.job: right {rights}: {}", stuck(narrow, ASK_EACH));
    let narrow =
        "ask for such a one in a job of its own, with size or depth as narrow as the plans allow, ";
    let all = [none, none, proved, proved];
    assert_eq!(told(9, 4, all), due("1 and 2", narrow));
    assert_eq!(told(3, 1, all), due("1 and 2", narrow));
    let larger = [proved, none, proved, none];
    assert_eq!(told(5, 2, larger), due("2 and 4", narrow));
    assert_eq!(told(3, 1, larger), due("2 and 4", ""));
}

#[test]
fn nothing_is_said_of_derivations() {
    let proved = "answer=proved\nleft=v0\nright=v1\nsteps=1\n";
    assert_eq!(said(SIDES, [3; 4], 400, proved), "");
    let three = format!("left=v0\n{}", "right=v1\n".repeat(3));
    assert_eq!(said(&three, [3; 4], 400, &proved.repeat(3)), "");
    assert_eq!(
        said(SIDES, [3; 4], 400, "same=yes\nleft=v0\nright=v0\n"),
        ""
    );
}

const FOUR: &str = "left=v0\nright=v1\nright=+ v0 v2\nright=v3\nright=* v0 v4\n";

#[test]
fn of_several_right_sides_the_nones_are_told_together() {
    let none = |right| format!("answer=none\nleft=v0\nright={right}\nexpanded=3\ncut=no\n");
    let proved = "answer=proved\nleft=v0\nright=v3\nsteps=1\n";
    let answer = [&none("v1"), &none("+ v0 v2"), proved, &none("* v0 v4")].concat();
    let due = format!(
        "a.job: right 1, 2 and 4: none: nothing was left to open; \
         raise steps, size or depth, or {ASK_EACH}\n\
         left: Orders\nright 1: v1\nright 2: Orders + v2\nright 4: Orders * v4"
    );
    assert_eq!(said(FOUR, [3; 4], 400, &answer), due);
}

#[test]
fn of_several_right_sides_those_refused_are_told_together() {
    let (refused, proved) = ("answer=refused\nnumber=7\n", "answer=proved\nleft=v0\n");
    let answer = [proved, proved, refused, proved].concat();
    let told = |given: &str| {
        let wrong = "of several right sides not all came up before the slots ran out";
        let to_do = "ask for such a one in a job of its own, with narrower size and depth, \
                     or with more slots, where they are below 65535";
        format!(
            "a.job: right 3: with {given}: {wrong}; {to_do} (refusal 7)\nleft: Orders\nright 3: v3"
        )
    };
    assert_eq!(said(FOUR, [3; 4], 400, &answer), told("--slots 400"));
    assert_eq!(
        said(FOUR, [3; 4], MOST_SLOTS, &answer),
        told("all 65535 slots")
    );
}
