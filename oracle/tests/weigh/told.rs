//! Wrong answers put to the judges are told, and the tests' own search agrees where it has no fault.

use oracle::cases::cases;
use oracle::plain::weigh::job::WeighJob;
use oracle::{About, Call, Entry, checked};

use super::faulty::{FAULTS, Fault, IN_HAND, answered};
use super::{ONES, answer, jobs, weigh};

/// Whether a text is told as a wrong answer to a call.
fn told(call: &Call, text: &str) -> bool {
    let text = Ok(text.as_bytes().to_vec());
    checked::beside_rust(call, &text).is_err()
}

/// Jobs of many sorts whose search is short.
fn many() -> Vec<(Call, WeighJob)> {
    let kinds = [
        ("lightest", 150),
        ("even", 60),
        ("detours", 150),
        ("far", 60),
        ("reach", 60),
        ("weigh-edges", 150),
        ("c-detours", 30),
        ("in-hand", 60),
        ("replaced", 60),
    ];
    let made = kinds
        .into_iter()
        .flat_map(|(kind, count)| jobs(kind, count));
    let is_short = |job: &WeighJob| job.limits.nodes * job.limits.size <= 3_000;
    let made = made.filter(|(_, job)| is_short(job));
    let cases = cases(&[About::Weigh, About::AtMost]).into_iter();
    let cases = cases.filter(|case| case.call.entry == Entry::Weigh);
    let cases = cases.filter_map(|case| {
        let job = WeighJob::read(&case.call.job).ok()?;
        Some((case.call, job))
    });
    made.chain(cases).collect()
}

/// Each fault shows in some answers, and each answer in which it shows is told.
#[test]
fn answers_with_a_fault_are_told() {
    let all = many();
    let right: Vec<String> = all
        .iter()
        .map(|(call, job)| {
            let text = answered(job, Fault::None);
            assert!(!told(call, &text), "{text}");
            text
        })
        .collect();
    for fault in FAULTS.into_iter().chain(IN_HAND) {
        let mut shown = 0;
        for ((call, job), right) in all.iter().zip(&right) {
            let text = answered(job, fault);
            if text != *right {
                shown += 1;
                assert!(told(call, &text), "{fault:?}\n{text}");
            }
        }
        assert!(shown >= 3, "{fault:?} shows in {shown} of {}", all.len());
    }
}

/// The answer to a job, room enough.
fn right(call: &Call) -> String {
    let text = answer(call).expect("a good job");
    assert!(checked::beside_rust(call, &Ok(text.clone())).is_ok());
    String::from_utf8(text).expect("answers are ASCII")
}

/// The answer with some words exchanged is another one, and told.
fn exchanged_is_told(call: &Call, right: &str, old: &str, new: &str) {
    assert!(right.contains(old), "{old}: {right}");
    assert!(told(call, &right.replace(old, new)), "{old} {new}");
}

/// The answer without one of its lines, or with one of them twice, is another one, and told.
fn each_line_is_told(call: &Call, right: &str) {
    let lines: Vec<&str> = right.split_inclusive('\n').collect();
    for at in 0..lines.len() {
        let mut others = lines.clone();
        others.remove(at);
        assert!(told(call, &others.concat()), "without line {at}");
        let mut doubled = lines.clone();
        doubled.insert(at, lines[at]);
        assert!(told(call, &doubled.concat()), "line {at} twice");
    }
}

#[test]
fn wrong_proved_answers_are_told() {
    let weights = "2 1 1 9 9 9 9 9 9 9";
    let call = weigh(["v0", "+ 0 v0", "3", "7", "3", "1000", weights]);
    let right = right(&call);
    let exchanges = [
        ("answer=proved", "answer=none"),
        ("steps=2", "steps=1"),
        ("total=2", "total=3"),
        ("total=2", "total=1"),
        ("total=2", "total=02"),
        ("total=2\n", ""),
        ("total=2\n", "total=2\ntotal=2\n"),
        ("steps=2\ntotal=2", "total=2\nsteps=2"),
        ("total=2\nexpanded=3", "expanded=3\ntotal=2"),
        ("expanded=3", "expanded=2"),
        ("expanded=3", "expanded=4"),
        ("expanded=3\n", "expanded=3\ncut=no\n"),
        ("add_comm,add_zero_right", "add_zero_right,add_comm"),
        ("forward", "back"),
        ("at=.", "at=l"),
        ("left=v0\nright=+ 0 v0", "left=+ 0 v0\nright=v0"),
        ("(ref add_comm)", "(ref mul_comm)"),
    ];
    for (old, new) in exchanges {
        exchanged_is_told(&call, &right, old, new);
    }
    each_line_is_told(&call, &right);
    assert!(told(&call, &right[..right.len() - 1]));
    assert!(told(&call, "answer=refused\nnumber=7\n"));
    assert!(checked::beside_rust(&call, &Err(7)).is_err());
}

#[test]
fn wrong_paths_in_hand_are_told() {
    let call = weigh(["v0", "+ v0 0", "9", "3", "1", "1", "1 1 9 1 1 1 1 1 1 1"]);
    let right = right(&call);
    let exchanges = [
        ("answer=atmost", "answer=proved"),
        ("answer=atmost", "answer=none"),
        ("total=9", "total=1"),
        ("total=9", "total=8"),
        ("atleast=1", "atleast=0"),
        ("atleast=1", "atleast=9"),
        ("atleast=1", "atleast=2"),
        ("atleast=1\n", ""),
        ("atleast=1\n", "atleast=1\natleast=1\n"),
        ("total=9\natleast=1", "atleast=1\ntotal=9"),
        ("atleast=1\nexpanded=1", "expanded=1\natleast=1"),
        ("expanded=1", "expanded=0"),
        ("expanded=1\n", "expanded=1\ncut=yes\n"),
        ("at=.", "at=l"),
    ];
    for (old, new) in exchanges {
        exchanged_is_told(&call, &right, old, new);
    }
    each_line_is_told(&call, &right);
    let none = "answer=none\nleft=v0\nright=+ v0 0\nexpanded=1\ncut=yes\n";
    assert!(told(&call, none));
}

#[test]
fn wrong_nones_are_told() {
    let uncut = weigh(["v0", "+ 0 v0", "1", "7", "3", "1000", ONES]);
    let cut = weigh(["v0", "+ 0 v0", "3", "7", "3", "1", ONES]);
    assert!(told(&cut, &right(&cut).replace("none", "atmost")));
    for (call, expanded, is_cut) in [(uncut, 4, "no"), (cut, 1, "yes")] {
        let right = right(&call);
        assert!(
            right.ends_with(&format!("expanded={expanded}\ncut={is_cut}\n")),
            "{right}"
        );
        let other = if is_cut == "no" { "yes" } else { "no" };
        let expanded = |by: i32| format!("expanded={}", expanded + by);
        exchanged_is_told(&call, &right, &expanded(0), &expanded(1));
        exchanged_is_told(&call, &right, &expanded(0), &expanded(-1));
        exchanged_is_told(&call, &right, is_cut, other);
        exchanged_is_told(&call, &right, "\ncut", "\ntotal=1\ncut");
        exchanged_is_told(&call, &right, "cut=", "atleast=");
    }
}

/// A job that is refused has no answer, and its refusal is no other.
#[test]
fn wrong_refusals_are_told() {
    let heavy = weigh(["v0", "+ 0 v0", "100", "7", "3", "1000", ONES]);
    assert!(checked::beside_rust(&heavy, &Err(16)).is_ok());
    for number in [1, 5, 6, 7, 8, 15, 17] {
        assert!(checked::beside_rust(&heavy, &Err(number)).is_err());
    }
    let good = weigh(["v0", "+ 0 v0", "99", "7", "3", "1000", ONES]);
    assert!(checked::beside_rust(&good, &Err(16)).is_err());
}
