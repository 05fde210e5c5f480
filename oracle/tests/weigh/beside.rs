//! Where all weights are 1 and no law matches both sides, the total is the number of FIND's lines.

use oracle::plain;
use oracle::plain::search::direct;
use oracle::plain::weigh::job::{WeighJob, write};
use oracle::plain::weigh::said::{Said, said};
use oracle::{Call, Entry};

use super::{ONES, answer, jobs};

/// The same equation and limits under a cost and weights all alike, and the job of FIND with as many steps.
fn pair(job: &WeighJob, weight: usize, steps: usize) -> [Vec<u8>; 2] {
    let sides = [&job.equation.left, &job.equation.right].map(|side| side.show());
    let [left, right] = sides.each_ref().map(String::as_str);
    let limits = [job.limits.size, job.limits.depth, job.limits.nodes];
    let [size, depth, nodes] = limits.map(|limit| limit.to_string());
    let (cost, steps) = ((weight * steps).to_string(), steps.to_string());
    let weights = ONES.replace('1', &weight.to_string());
    [
        write(&[left, right, &cost, &size, &depth, &nodes, &weights]),
        plain::job::write(&[left, right, &steps, &size, &depth, &nodes]),
    ]
}

/// The lines of FIND's path, if it has one.
fn found(job: Vec<u8>) -> Option<usize> {
    let call = Call {
        entry: Entry::Find,
        slots: usize::MAX,
        room: usize::MAX,
        job,
    };
    let text = String::from_utf8(answer(&call).expect("a good job")).expect("answers are ASCII");
    let lines = text.lines().find_map(|line| line.strip_prefix("steps="));
    lines.map(|lines| lines.parse().expect("a number"))
}

/// Puts jobs under this weight, and steps times it, to both; says how many both prove, how many neither, and how many
/// WEIGH has in hand.
fn both(weight: usize, steps: usize) -> [usize; 3] {
    let (mut proved, mut neither, mut in_hand) = (0, 0, 0);
    let kinds = ["lightest", "detours", "far", "weigh-edges", "c-lightest"];
    for (_, job) in kinds.into_iter().flat_map(|kind| jobs(kind, 100)) {
        let (left, right) = job.equation.oriented();
        let is_short = job.limits.nodes * job.limits.size <= 3_000;
        if !is_short || direct(left, right).is_some() {
            continue;
        }
        let [weigh, find] = pair(&job, weight, steps);
        let call = Call {
            entry: Entry::Weigh,
            slots: usize::MAX,
            room: usize::MAX,
            job: weigh,
        };
        let given = said(&answer(&call).expect("a good job"));
        match (given, found(find)) {
            (Said::Proved { total, steps, .. }, lines) => {
                proved += 1;
                assert_eq!(lines, Some(steps));
                assert_eq!(total, steps * weight);
            }
            (Said::AtMost { total, atleast, .. }, lines) => {
                in_hand += 1;
                assert!(total == atleast || total == atleast + weight);
                assert!(lines.is_some() || total > atleast);
                assert!(lines.is_none_or(|lines| lines * weight == total));
            }
            (Said::None { cut, .. }, lines) => {
                neither += usize::from(lines.is_none());
                assert!(cut || lines.is_none());
            }
        }
    }
    [proved, neither, in_hand]
}

#[test]
fn a_total_is_the_number_of_lines() {
    let [proved, neither, in_hand] = both(1, 16);
    let is_many = proved > 80 && neither > 50 && in_hand > 15;
    assert!(is_many, "{proved} {neither} {in_hand}");
}

#[test]
fn heavier_weights_alike() {
    for (weight, steps) in [(9, 3), (5, 16), (2, 2)] {
        let [proved, neither, in_hand] = both(weight, steps);
        let is_many = proved > 80 && neither > 50 && in_hand > 8;
        assert!(is_many, "{proved} {neither} {in_hand}");
    }
}

/// What only a direct match proves, or what it proves at once, WEIGH doesn't.
#[test]
fn no_direct_match_is_tried() {
    let (mut proved, mut none) = (0, 0);
    for (call, job) in jobs("lightest", 400) {
        let (left, right) = job.equation.oriented();
        if direct(left, right).is_none() {
            continue;
        }
        let given = plain::answer(call.entry, &call.job, usize::MAX, usize::MAX);
        match said(&given.expect("a good job")) {
            Said::Proved { expanded, .. } | Said::AtMost { expanded, .. } => {
                proved += 1;
                assert!(expanded > 0);
            }
            Said::None { .. } => none += 1,
        }
    }
    assert!(proved > 20 && none > 10, "{proved} {none}");
}
