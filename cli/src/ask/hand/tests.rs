use puvainy::Entry;

use super::super::blocks::blocks;
use super::*;

/// What is said of the answer to a job of `* v0 v1` and `+ v0 v1` with these limits.
fn said(limits: [usize; 3], answer: &str) -> Option<String> {
    let [size, depth, nodes] = limits;
    let limits = format!("size={size}\ndepth={depth}\nnodes={nodes}\n");
    let sides = "left=* v0 v1\nright=+ v0 v1\ncost=9\n";
    let job = format!("{sides}{limits}weights=1 1 1 1 1 1 1 1 1 1\n");
    let job = Job::new(Entry::Weigh, job.as_bytes());
    sentence(&job, &blocks(answer.as_bytes())[0])
}

fn held(total: usize, atleast: usize) -> String {
    format!("answer=atmost\ntotal={total}\natleast={atleast}\n")
}

#[test]
fn the_difference_is_what_more_nodes_can_gain() {
    for (total, atleast, gain) in [(8, 7, 1), (11, 4, 7), (99, 90, 9), (9, 0, 9)] {
        let told = said([3, 1, 20], &held(total, atleast)).unwrap();
        let ran_out = "atmost: nodes ran out with a derivation in hand";
        let more = format!("and more can still gain {gain} at most");
        assert_eq!(told, format!("{ran_out}, {more}; raise nodes, or take it"));
    }
}

#[test]
fn a_lightest_is_to_be_taken() {
    let due = "atmost: nodes ran out, but the derivation in hand is a lightest; take it";
    for limits in [[3, 1, 20], [31, 15, 4096]] {
        assert_eq!(said(limits, &held(8, 8)).as_deref(), Some(due));
    }
}

#[test]
fn where_nodes_cannot_be_raised_size_and_depth_may_be_narrowed() {
    for (size, depth, narrow) in [
        (9, 3, "narrow size or depth as far as the plans allow, or "),
        (5, 1, ""),
        (31, 2, "narrow size or depth as far as the plans allow, or "),
        (3, 1, ""),
    ] {
        let told = said([size, depth, 4096], &held(8, 6)).unwrap();
        let (_, to_do) = told.split_once("; ").unwrap();
        let due = format!("no limit that helps can be raised: {narrow}take it");
        assert_eq!(to_do, due, "{size} {depth}");
        let below = said([size, depth, 4095], &held(8, 6)).unwrap();
        assert!(below.ends_with("; raise nodes, or take it"));
    }
}

#[test]
fn nothing_is_said_of_other_answers() {
    for answer in [
        "answer=proved\ntotal=8\n",
        "answer=none\ncut=yes\n",
        "answer=atmost\n",
    ] {
        assert_eq!(said([3, 1, 20], answer), None);
    }
}

/// The rows of the table that leads from the answer to what to do.
#[test]
fn the_guide_shows_when_to_stop() {
    let guide = include_str!("../../../../docs/guide.md");
    for (ends, told, to_do) in [
        ("the same", LIGHTEST, TAKE),
        ("above `atleast`", HELD, RAISE),
    ] {
        let mut rows = guide
            .lines()
            .filter(|line| line.starts_with("| `atmost`, "));
        let row = rows.find(|row| row.contains(ends)).unwrap();
        let cells: Vec<_> = row.trim_matches(['|', ' ']).split(" | ").collect();
        assert!(cells[1].starts_with(told), "{row}");
        assert_eq!(cells[2], to_do);
    }
}
