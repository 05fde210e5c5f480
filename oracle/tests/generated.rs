//! Both implementations agree on generated calls, and every kind makes what it says.

use std::collections::BTreeSet;

use oracle::generate::{KINDS, Plan};
use oracle::plain::{job::Job, nones::nones};
use oracle::{About, Call, Entry, Given, checked, list, plain};

/// The calls of a plan with what they give.
fn answers(plan: &Plan) -> Vec<(Entry, Given)> {
    let answers = plan.calls().map(|(kind, call)| {
        let given = checked::answer(&call);
        let given = given.unwrap_or_else(|found| panic!("kind={}\n{found}", KINDS[kind].name));
        (call.entry, given)
    });
    answers.collect()
}

fn of_kind(name: &str, count: u64) -> Plan {
    Plan {
        count,
        kind: KINDS.iter().position(|kind| kind.name == name),
        ..Plan::default()
    }
}

/// The refusals that calls of this kind are given; 0 for an answer.
fn numbers(name: &str) -> BTreeSet<u8> {
    let given = answers(&of_kind(name, 400));
    given
        .into_iter()
        .map(|(_, given)| given.err().unwrap_or(0))
        .collect()
}

#[test]
fn every_light_kind_agrees() {
    for kind in KINDS.iter().filter(|kind| !kind.is_heavy()) {
        // of paths of many lines each takes half a second
        let count = if kind.name == "long" { 20 } else { 200 };
        answers(&of_kind(kind.name, count));
    }
}

#[test]
fn refusals_come_from_their_kinds() {
    assert_eq!(numbers("sides"), BTreeSet::from([2]));
    assert_eq!(numbers("equal"), BTreeSet::from([5, 6]));
    assert!(numbers("lines").is_superset(&BTreeSet::from([1])));
    assert!(numbers("nodes").is_superset(&BTreeSet::from([0, 2, 3])));
    assert!(numbers("letters").is_superset(&BTreeSet::from([0, 4])));
    assert!(numbers("limits").is_superset(&BTreeSet::from([0, 5])));
    assert!(numbers("several").is_superset(&BTreeSet::from([1, 2, 3, 4, 5, 6])));
    assert!(numbers("slots").is_superset(&BTreeSet::from([0, 7])));
    assert!(numbers("room").is_superset(&BTreeSet::from([0, 8])));
    assert!(numbers("cuts").is_superset(&BTreeSet::from([0, 7])));
}

#[test]
fn refusals_of_several_right_sides_come_from_their_kinds() {
    assert_eq!(numbers("plan-slots"), BTreeSet::from([0]));
    assert_eq!(numbers("plan-room"), BTreeSet::from([0, 8]));
    assert!(numbers("right-count").is_superset(&BTreeSet::from([0, 1, 2, 9])));
    assert!(numbers("one-wrong").is_superset(&BTreeSet::from([1, 2, 3, 4, 5, 6, 10])));
    assert!(numbers("each-six").is_superset(&BTreeSet::from([0, 4])));
    assert!(numbers("plan-faults").is_superset(&BTreeSet::from([1, 2, 3, 4, 5, 6, 9, 10])));
    assert!(numbers("lengths").is_superset(&BTreeSet::from([0, 1, 3, 9])));
    assert!(numbers("right-lines").is_superset(&BTreeSet::from([0, 1])));
}

#[test]
fn refusals_of_derivations_come_from_their_kinds() {
    for name in ["found", "walks", "returns", "deep", "step-room"] {
        assert_eq!(numbers(name), BTreeSet::from([0, 8]), "{name}");
    }
    assert!(numbers("bent").is_superset(&BTreeSet::from([0, 12])));
    assert!(numbers("torn").is_superset(&BTreeSet::from([0, 11, 12])));
    assert!(numbers("twofold").is_superset(&BTreeSet::from([0, 12])));
    assert!(numbers("step-lines").is_superset(&BTreeSet::from([1])));
    assert!(numbers("step-terms").is_superset(&BTreeSet::from([2])));
    assert!(numbers("step-nodes").is_superset(&BTreeSet::from([0, 3, 12])));
    assert!(numbers("step-names").is_superset(&BTreeSet::from([0, 4, 11, 12])));
    assert_eq!(numbers("no-step"), BTreeSet::from([11]));
    assert!(numbers("step-faults").is_superset(&BTreeSet::from([1, 2, 3, 4, 8, 11, 12])));
    assert!(numbers("step-bytes").is_superset(&BTreeSet::from([0, 1, 2, 12])));
    assert!(numbers("step-damage").is_superset(&BTreeSet::from([1, 2, 12])));
}

/// The jobs with each right line by itself.
fn single_jobs(job: &[u8]) -> Vec<Vec<u8>> {
    let lines: Vec<&[u8]> = job.split_inclusive(|&byte| byte == b'\n').collect();
    let (sides, limits) = lines.split_at(lines.len() - 4);
    let rights = sides[1..].iter();
    rights
        .map(|right| [sides[0], right, &limits.concat()].concat())
        .collect()
}

/// What a block says of such a job.
fn block(job: &[u8], slots: usize) -> String {
    let call = Call {
        entry: Entry::Find,
        slots,
        room: usize::MAX,
        job: job.to_vec(),
    };
    let given = checked::answer(&call).unwrap_or_else(|found| panic!("{found}"));
    assert!(matches!(given, Ok(_) | Err(7)));
    checked::show(&given)
}

#[test]
fn blocks_are_what_single_jobs_are_answered() {
    let mut both = 0;
    for (_, call) in of_kind("plan-slots", 300).calls() {
        let jobs = single_jobs(&call.job);
        let blocks: Vec<String> = jobs.iter().map(|job| block(job, call.slots)).collect();
        let given = plain::answer(call.entry, &call.job, call.slots, usize::MAX);
        assert_eq!(given, Ok(blocks.concat().into_bytes()));
        let refused = blocks.iter().filter(|block| block.contains("=refused\n"));
        both += usize::from((1..blocks.len()).contains(&refused.count()));
    }
    assert!(both > 30, "{both} calls with answers and blocks of 7");
}

/// Nones of these kinds: no by both rules for `cut`, by the present one alone, by neither.
#[test]
fn both_rules_for_cut_differ_often() {
    for name in ["cuts", "plan-cuts"] {
        let mut counts = [0; 3];
        for (_, call) in of_kind(name, 400).calls() {
            let job = Job::read(call.entry, &call.job).expect("a good job");
            let given = plain::answer(call.entry, &call.job, call.slots, usize::MAX);
            for said in nones(&given.unwrap_or_default()) {
                let was_cut = said.was_cut(job.limits.nodes);
                counts[usize::from(said.cut) + usize::from(was_cut)] += 1;
            }
        }
        assert!(counts.iter().all(|&count| count > 80), "{name}: {counts:?}");
    }
}

#[test]
fn shares_of_a_mixed_list() {
    let shares = |about| KINDS.iter().filter(move |kind| kind.about == about);
    let sum = |about| shares(about).map(|kind| kind.share).sum::<usize>();
    let all = [
        About::One,
        About::Many,
        About::Check,
        About::Fixed,
        About::Same,
        About::Weigh,
    ];
    assert_eq!(all.map(sum), [1_000, 500, 500, 500, 500, 500]);
}

#[test]
fn paths_of_one_to_four_lines_are_found() {
    let given = answers(&of_kind("paths", 1_000));
    let texts = given.into_iter().filter_map(|(_, given)| given.ok());
    let texts: Vec<String> = texts.map(|text| String::from_utf8(text).unwrap()).collect();
    for steps in 1..=4 {
        let line = format!("\nsteps={steps}\n");
        assert!(texts.iter().any(|text| text.contains(&line)), "{line}");
    }
}

#[test]
fn the_most_words_are_met() {
    let given = answers(&of_kind("words", 200));
    let most = given.into_iter().filter_map(|(entry, given)| {
        let text = given.ok().filter(|_| entry == Entry::Words)?;
        let sides = text.split(|&byte| byte == b'\n');
        sides
            .map(|side| 1 + side.iter().filter(|&&byte| byte == b';').count())
            .max()
    });
    assert_eq!(most.max(), Some(324));
}

#[test]
fn lists_are_the_same_for_a_seed() {
    let written = |seed| {
        let plan = Plan {
            seed,
            ..of_kind("damaged", 300)
        };
        let mut out = Vec::new();
        for (_, call) in plan.calls() {
            list::write_call(&mut out, &call).unwrap();
        }
        out
    };
    assert_eq!(written(5), written(5));
    assert_ne!(written(5), written(6));
}
