//! The fourth wish of document 02: `cut` is yes exactly when a noted term at a distance below steps was left
//! unopened.

use oracle::plain::nones::{Said, nones};
use oracle::plain::{self, MOST_SLOTS, job};
use oracle::{Call, Entry, PROGRAM_ROOM, checked};

/// FIND's answer, with slots enough; plain and the Rust agree on it.
fn find(left: &str, rights: &[&str], limits: [usize; 4]) -> String {
    let limits = limits.map(|value| value.to_string());
    let limits = limits.each_ref().map(String::as_str);
    let call = Call {
        entry: Entry::Find,
        slots: MOST_SLOTS,
        room: PROGRAM_ROOM,
        job: job::write(&[&[left], rights, &limits].concat()),
    };
    let given = checked::answer(&call).unwrap_or_else(|difference| panic!("{difference}"));
    String::from_utf8(given.expect("a good job")).expect("answers are ASCII")
}

/// The terms opened and `cut` of a none.
fn said(left: &str, right: &str, limits: [usize; 4]) -> (usize, bool) {
    match nones(find(left, &[right], limits).as_bytes())[..] {
        [Said { expanded, cut }] => (expanded, cut),
        _ => panic!("{left} and {right} are proved"),
    }
}

#[test]
fn the_documents_equation() {
    let d = |steps, nodes| said("v0", "+ 0 v0", [steps, 7, 3, nodes]);
    assert_eq!(d(3, 1), (1, true));
    assert_eq!(d(1, 1), (1, false));
    assert_eq!(d(1, 1_000), (1, false));
}

#[test]
fn without_nodes_left_waits_if_there_is_a_step() {
    for steps in 1..=16 {
        assert_eq!(said("v0", "v1", [steps, 3, 1, 0]), (0, true));
    }
    for nodes in [0, 1, 4_096] {
        assert_eq!(said("v0", "v1", [0, 3, 1, nodes]), (0, false));
    }
}

/// Left and its three results are the terms at a distance below 2. Those noted at distance 2 wait for no node.
#[test]
fn nothing_waits_below_steps_though_expanded_equals_nodes() {
    let two_steps = |nodes| said("v0", "v1", [2, 5, 2, nodes]);
    assert_eq!(two_steps(4), (4, false));
    assert_eq!(two_steps(5), (4, false));
    let (text, noted) = whole("v0", "v1", [2, 5, 2, 4]);
    assert!(text.contains("\nexpanded=4\n"));
    assert!(noted > 4, "{noted} terms are noted");
    // three steps let them wait
    assert_eq!(said("v0", "v1", [3, 5, 2, 4]), (4, true));
}

#[test]
fn a_term_waits_at_the_last_distance_below_steps() {
    for nodes in 1..=3 {
        assert_eq!(said("v0", "v1", [2, 5, 2, nodes]), (nodes, true));
    }
}

/// No step leads on: neither from left, nor from any term that is noted.
#[test]
fn no_new_term_is_left_to_open() {
    assert_eq!(said("v0", "v1", [16, 2, 1, 1]), (1, false));
    let (all, cut) = said("v0", "v1", [16, 3, 1, 4_096]);
    assert!(!cut && all < 4_096);
    assert_eq!(said("v0", "v1", [16, 3, 1, all]), (all, false));
    assert_eq!(said("v0", "v1", [16, 3, 1, all - 1]), (all - 1, true));
}

/// More nodes lead on as long as `cut` is yes, and change nothing once it is no.
#[test]
fn a_planner_raises_nodes_until_it_says_no() {
    for (steps, size, depth) in [(1, 7, 3), (2, 7, 3), (3, 5, 2), (4, 5, 2), (16, 5, 2)] {
        let limits = |nodes| [steps, size, depth, nodes];
        let mut nodes = 0;
        while said("v0", "* v1 v0", limits(nodes)) == (nodes, true) {
            nodes += 1;
        }
        let last = find("v0", &["* v1 v0"], limits(nodes));
        assert!(last.ends_with(&format!("expanded={nodes}\ncut=no\n")));
        for more in [nodes + 1, nodes + 2, 4_096] {
            assert_eq!(find("v0", &["* v1 v0"], limits(more)), last);
        }
    }
}

/// The Rust is asked with 4,097 there.
#[test]
fn the_largest_node_limit_is_met() {
    assert_eq!(said("v0", "v1", [16, 9, 4, 4_096]), (4_096, true));
}

#[test]
fn nones_of_one_job_say_the_same() {
    let limits = |nodes| [2, 5, 2, nodes];
    for (nodes, cut) in [(0, true), (1, true), (3, true), (4, false), (5, false)] {
        let text = find("v0", &["v1", "+ v0 0", "v2"], limits(nodes));
        let expanded = nodes.min(4);
        assert_eq!(nones(text.as_bytes()), [Said { expanded, cut }; 2]);
    }
}

#[test]
fn a_block_that_lacks_slots_has_no_cut() {
    let values = ["v0", "+ 0 v0", "+ v0 0", "3", "7", "3", "1"];
    let job = job::write(&values);
    let given = plain::answer(Entry::Find, &job, 3, PROGRAM_ROOM);
    let text = String::from_utf8(given.expect("several right sides")).expect("ASCII");
    assert!(text.starts_with("answer=refused\nnumber=7\nanswer=proved\n"));
    assert!(!text.contains("cut="));
}

/// The answer to one equation, and how many terms are noted.
fn whole(left: &str, right: &str, limits: [usize; 4]) -> (String, usize) {
    let [steps, size, depth, nodes] = limits.map(|value| value.to_string());
    let values = [left, right, &steps, &size, &depth, &nodes];
    let (text, noted) = plain::whole(Entry::Find, &job::write(&values)).expect("a good job");
    (String::from_utf8(text).expect("answers are ASCII"), noted)
}
