//! A path in hand where nodes run out: under every node limit, by what is claimed of it alone, and beside more nodes.

use oracle::About;
use oracle::checked::{broken, changed};
use oracle::generate::Plan;
use oracle::plain;
use oracle::plain::weigh::block;
use oracle::plain::weigh::job::WeighJob;
use oracle::plain::weigh::said::{Said, said};
use oracle::plain::weigh::search::moments;
use oracle::rust::weigh::{Known, weighed};

use super::faulty::{Fault, IN_HAND, answered};
use super::jobs;

fn with_nodes(job: &WeighJob, nodes: usize) -> WeighJob {
    let mut job = job.clone();
    job.limits.nodes = nodes;
    job
}

/// What plain answers under this node limit.
fn under(job: &WeighJob, nodes: usize) -> Vec<u8> {
    let block = block(&with_nodes(job, nodes), usize::MAX);
    block.expect("slots enough").text
}

/// Jobs whose nodes mostly run out, with few terms opened.
fn short() -> Vec<WeighJob> {
    let kinds = [
        "in-hand",
        "replaced",
        "hand-cost",
        "one-node",
        "hand-far",
        "reach",
    ];
    let made = kinds.into_iter().flat_map(|kind| jobs(kind, 60));
    let made = made.map(|(_, job)| job);
    made.filter(|job| job.limits.nodes * job.limits.size <= 1_000)
        .collect()
}

/// Under 0 nodes, 1, 2 and so on an answer is a none at first, from where right is noted on an atmost, whose total only
/// falls and whose `atleast` only rises, and at last a proved answer or a none that stays.
#[test]
fn more_nodes_lead_on() {
    let (mut in_hand, mut lowered, mut proved, mut stayed) = (0, 0, 0, 0);
    for job in short() {
        let most = job.limits.nodes + 1;
        let moments = moments(&with_nodes(&job, most));
        let mut former: Option<Said> = None;
        for nodes in 0..=most {
            let text = under(&job, nodes);
            let now = said(&text);
            match (former, now) {
                (
                    Some(Said::AtMost { total, atleast, .. }),
                    Said::AtMost {
                        total: later,
                        atleast: least,
                        ..
                    },
                ) => {
                    assert!(later <= total && atleast <= least && least <= later);
                    lowered += usize::from(later < total);
                }
                (Some(Said::AtMost { total, atleast, .. }), Said::Proved { total: later, .. }) => {
                    assert!(atleast <= later && later <= total);
                    proved += 1;
                }
                (Some(Said::AtMost { .. }), Said::None { .. }) => panic!("a path in hand is lost"),
                (Some(Said::Proved { .. } | Said::None { cut: false, .. }), _) => {
                    assert_eq!(former, Some(now));
                    stayed += 1;
                }
                (None | Some(Said::None { .. }), Said::AtMost { .. }) => {
                    assert_eq!(Some(&nodes), moments.first());
                    in_hand += 1;
                }
                (None | Some(Said::None { .. }), _) => {}
            }
            former = Some(now);
        }
    }
    let counts = [in_hand, lowered, proved, stayed];
    assert!(counts.iter().all(|&count| count > 20), "{counts:?}");
}

/// The claim that a text breaks as the answer to a job.
fn claim(job: &WeighJob, text: &str) -> Option<&'static str> {
    let mut known = Known::new(job);
    let next = weighed(&mut known).next;
    broken(&mut known, text.as_bytes(), next)
}

/// Each fault of a path in hand shows in some answers, and each answer in which it shows breaks a claim, whatever the
/// other search says.
#[test]
fn faults_break_a_claim() {
    let kinds = ["in-hand", "replaced", "one-node", "weigh-edges"];
    let all: Vec<WeighJob> = kinds
        .into_iter()
        .flat_map(|kind| jobs(kind, 80))
        .map(|(_, job)| job)
        .filter(|job| job.limits.nodes * job.limits.size <= 3_000)
        .collect();
    for fault in IN_HAND {
        let mut shown = 0;
        for job in &all {
            let [right, text] = [Fault::None, fault].map(|fault| answered(job, fault));
            assert_eq!(claim(job, &right), None, "{right}");
            if text != right {
                shown += 1;
                assert!(claim(job, &text).is_some(), "{fault:?}\n{text}");
            }
        }
        assert!(shown >= 10, "{fault:?} shows in {shown} of {}", all.len());
    }
}

/// What more nodes rule out is told, by plain alone.
#[test]
fn more_nodes_tell_of_a_wrong_answer() {
    let (mut lighter, mut kept) = (0, 0);
    let kinds = [("in-hand", 60), ("replaced", 300)];
    let made = kinds
        .into_iter()
        .flat_map(|(kind, count)| jobs(kind, count));
    for (_, job) in made {
        let text = under(&job, job.limits.nodes);
        assert_eq!(changed(&job, &text), None);
        let Said::AtMost { total, atleast, .. } = said(&text) else {
            continue;
        };
        let text = String::from_utf8(text).expect("answers are ASCII");
        let with = |old: String, new: String| {
            assert!(text.contains(&old));
            changed(&job, text.replacen(&old, &new, 1).as_bytes()).is_some()
        };
        let line = |opened| format!("\nexpanded={opened}\n");
        let nodes = job.limits.nodes;
        assert!(with(line(nodes), line(nodes + 1)));
        let later = said(&under(&job, 2 * nodes + 1));
        if later.total().is_some_and(|later| later < total) {
            lighter += 1;
            let line = |least| format!("\natleast={least}\n");
            assert!(with(line(atleast), line(total)));
        } else {
            kept += 1;
            let line = |total| format!("\ntotal={total}\n");
            assert!(with(line(total), line(total - 1)));
        }
        let proved = text.replacen("atmost", "proved", 1);
        let proved = proved.replacen(&format!("atleast={atleast}\n"), "", 1);
        assert!(changed(&job, proved.as_bytes()).is_some());
    }
    assert!(lighter > 5 && kept > 20, "{lighter} {kept}");
}

/// How answers of a kind's calls end, room and slots enough: proved, in hand at `atleast`, in hand above it, and none.
fn ends(kind: &str, count: u64) -> [usize; 4] {
    let mut ends = [0; 4];
    for (_, job) in jobs(kind, count) {
        let at = match said(&under(&job, job.limits.nodes)) {
            Said::Proved { .. } => 0,
            Said::AtMost { total, atleast, .. } => 1 + usize::from(total > atleast),
            Said::None { .. } => 3,
        };
        ends[at] += 1;
    }
    ends
}

#[test]
fn paths_are_in_hand() {
    for kind in [
        "in-hand",
        "hand-far",
        "hand-even",
        "one-node",
        "hand-slots",
        "c-in-hand",
    ] {
        let [proved, at, above, none] = ends(kind, 100);
        assert!(
            at + above > 50 && at > 5 && above > 5,
            "{kind} {proved} {at} {above} {none}"
        );
    }
    let [_, at, above, none] = ends("hand-cost", 100);
    assert!(at + above > 30 && none > 20, "{at} {above} {none}");
}

/// Nodes just before, at and after a term by which the path is replaced.
#[test]
fn paths_are_replaced() {
    let (mut before, mut at, mut after) = (0, 0, 0);
    for (_, job) in jobs("replaced", 200) {
        let nodes = job.limits.nodes;
        let moments = moments(&with_nodes(&job, nodes + 1));
        for later in moments.into_iter().skip(1) {
            before += usize::from(nodes + 1 == later);
            at += usize::from(nodes == later);
            after += usize::from(nodes > later);
        }
    }
    assert!(
        [before, at, after].iter().all(|&count| count > 15),
        "{before} {at} {after}"
    );
}

/// Of the calls of WEIGH more than a tenth have a path in hand, and there are many of each other answer.
#[test]
fn a_tenth_is_in_hand() {
    let plan = Plan {
        count: 1_000,
        about: vec![About::Weigh, About::AtMost],
        light: true,
        ..Plan::default()
    };
    let (mut proved, mut in_hand, mut none, mut refused) = (0, 0, 0, 0);
    for (_, call) in plan.calls() {
        let given = plain::answer(call.entry, &call.job, call.slots, call.room);
        match given.map(|text| said(&text)) {
            Ok(Said::Proved { .. }) => proved += 1,
            Ok(Said::AtMost { .. }) => in_hand += 1,
            Ok(Said::None { .. }) => none += 1,
            Err(_) => refused += 1,
        }
    }
    let counts = [proved, in_hand, none, refused];
    assert!(counts.iter().all(|&count| count > 120), "{counts:?}");
}
