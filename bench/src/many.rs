//! FIND with sixteen right sides: one call beside sixteen calls with one each, and beside the dearest of these.

use puvainy::{Entry, MOST_SLOTS};

use crate::find::{BALANCED, LARGEST, PROGRAM};
use crate::ours::{ROOM, Workspace};
use crate::table::bests;

const RIGHTS: usize = 16;

/// A left side, its right sides, each after left in term order, and the limits.
struct Set {
    what: &'static str,
    left: &'static str,
    rights: [String; RIGHTS],
    limits: [usize; 4],
    rounds: usize,
}

/// Of `+ v0 v1`, whose words no right side has.
const SMALL_NONES: [&str; RIGHTS] = [
    "* v0 v1",
    "* v1 v0",
    "* v0 v0",
    "* v1 v1",
    "+ v0 v2",
    "+ v1 v1",
    "+ v0 + v1 v1",
    "+ v0 + v0 v1",
    "+ v0 * v1 v0",
    "+ v1 * v0 v0",
    "+ 0 * v0 v1",
    "+ 1 + v0 v1",
    "* 1 + v0 v0",
    "* v0 + 1 v1",
    "* + v0 v1 v0",
    "* + v0 1 v1",
];

/// Of `+ v0 v1`: two direct matches, paths of two and three lines, and nones.
const SMALL_MIXED: [&str; RIGHTS] = [
    "+ v1 v0",
    "+ v1 + v0 0",
    "+ v1 * v0 1",
    "+ + v1 0 + v0 0",
    "+ + v0 v1 0",
    "* 1 + v1 v0",
    "* + v1 v0 1",
    "+ + v1 0 v0",
    "* v0 v1",
    "* v1 v0",
    "+ v0 v2",
    "+ v1 v1",
    "+ v0 + v1 v1",
    "+ v0 * v1 v0",
    "* v0 + 1 v1",
    "* + v0 1 v1",
];

const JOINS: &str = "+ * v0 v1 * v0 v2";

/// Of `JOINS`, whose words no right side has.
const LARGE_NONES: [&str; RIGHTS] = [
    "* v1 + v0 v2",
    "* v2 + v0 v1",
    "* + v1 v2 v0",
    "* + v2 v1 v0",
    "+ * v0 v1 * v2 v0",
    "+ * v1 v0 * v0 v2",
    "+ * v1 v0 * v2 v0",
    "+ * v0 v2 * v1 v0",
    "+ * v0 v1 * v0 v3",
    "+ * v0 v2 * v0 v2",
    "+ * v0 v3 * v0 v2",
    "+ * v0 v1 * v0 * v2 v2",
    "* v0 + v1 + v2 v2",
    "* v0 + 1 + v1 v2",
    "* v0 * v1 v2",
    "* * v0 v1 v2",
];

/// Of `JOINS`: two direct matches, paths of two to four lines, and nones.
const LARGE_MIXED: [&str; RIGHTS] = [
    "+ * v0 v2 * v0 v1",
    "* v0 + v1 v2",
    "* v0 + v2 v1",
    "+ * v0 v2 + * v0 v1 0",
    "* v0 + v2 * v1 1",
    "* v0 + v2 + v1 0",
    "* v0 + * v2 1 * v1 1",
    "* v0 + * 1 v2 * v1 1",
    "* v1 + v0 v2",
    "* v2 + v0 v1",
    "* + v1 v2 v0",
    "+ * v0 v1 * v2 v0",
    "+ * v1 v0 * v0 v2",
    "+ * v0 v1 * v0 v3",
    "* v0 + v1 + v2 v2",
    "* v0 * v1 v2",
];

/// Terms that are `BALANCED` but for their last two items, so that a comparison with what is noted goes far. None has its words.
fn alike() -> [String; RIGHTS] {
    let begin = BALANCED.strip_suffix("v1 v2").expect("it ends so");
    let ends = [1, 2, 3, 4]
        .into_iter()
        .flat_map(|a| (0..6).map(move |b| (a, b)));
    let later = ends.filter(|&end| end > (1, 2) && end != (2, 1));
    let terms: Vec<String> = later
        .map(|(a, b)| format!("{begin}v{a} v{b}"))
        .take(RIGHTS)
        .collect();
    terms.try_into().expect("there are as many")
}

fn sets() -> [Set; 5] {
    let set = |what, left, rights, limits| Set {
        what,
        left,
        rights,
        limits,
        rounds: if limits == PROGRAM { 100 } else { 10 },
    };
    let owned = |rights: [&str; RIGHTS]| rights.map(str::to_owned);
    [
        set("3 7 3 1000: nones", "+ v0 v1", owned(SMALL_NONES), PROGRAM),
        set("3 7 3 1000: mixed", "+ v0 v1", owned(SMALL_MIXED), PROGRAM),
        set(
            "largest: nones, seven nodes",
            JOINS,
            owned(LARGE_NONES),
            LARGEST,
        ),
        set(
            "largest: nones, 29 nodes, alike",
            BALANCED,
            alike(),
            LARGEST,
        ),
        set(
            "largest: mixed, seven nodes",
            JOINS,
            owned(LARGE_MIXED),
            LARGEST,
        ),
    ]
}

impl Set {
    /// The job with these of the right sides.
    fn text(&self, rights: &[String]) -> Vec<u8> {
        let rights: String = rights
            .iter()
            .map(|right| format!("right={right}\n"))
            .collect();
        let [steps, size, depth, nodes] = self.limits;
        let limits = format!("steps={steps}\nsize={size}\ndepth={depth}\nnodes={nodes}\n");
        format!("left={}\n{rights}{limits}", self.left).into_bytes()
    }
}

pub fn rows(workspace: &mut Workspace) {
    println!(
        "\nFIND, ours, 65,535 slots: one call with 16 right sides beside 16 calls with one each, in µs"
    );
    println!(
        "{:<34} {:>20} {:>9} {:>10} {:>10} {:>10} {:>8}",
        "", "blocks", "one call", "dearest", "16 calls", "one/dear", "16/one"
    );
    for set in sets() {
        one(&set, workspace);
    }
}

/// One line of the table: the best of several rounds of each call, turn by turn.
fn one(set: &Set, workspace: &mut Workspace) {
    let all = set.text(&set.rights);
    let texts: Vec<Vec<u8>> = set.rights.chunks(1).map(|right| set.text(right)).collect();
    let told = compare(&all, &texts, workspace);
    let times = bests(set.rounds, 1 + RIGHTS, |call| {
        let text = call.checked_sub(1).map_or(&all, |right| &texts[right]);
        workspace.call(Entry::Find, text, MOST_SLOTS, ROOM)
    });
    let times: Vec<f64> = times.into_iter().map(|time| time * 1e6).collect();
    let (one, each) = (times[0], &times[1..]);
    let dearest = each.iter().copied().fold(0.0, f64::max);
    let sixteen: f64 = each.iter().sum();
    println!(
        "{:<34} {told:>20} {one:>9.1} {dearest:>10.1} {sixteen:>10.1} {:>10.2} {:>8.2}",
        set.what,
        one / dearest,
        sixteen / one
    );
}

/// Holds the one answer to the blocks, each what the job with one right side answers, and says of which kinds they are.
fn compare(all: &[u8], texts: &[Vec<u8>], workspace: &mut Workspace) -> String {
    let (mut blocks, mut counts) = (Vec::new(), [0; 3]);
    for text in texts {
        let block = match workspace.answer(Entry::Find, text, MOST_SLOTS, ROOM) {
            Ok(block) => block,
            Err(number) => format!("answer=refused\nnumber={number}\n").into_bytes(),
        };
        let kinds = [&b"answer=proved"[..], b"answer=none", b"answer=refused"];
        let kind = kinds.iter().position(|kind| block.starts_with(kind));
        counts[kind.expect("a block is one of these")] += 1;
        blocks.extend(block);
    }
    let given = workspace.answer(Entry::Find, all, MOST_SLOTS, ROOM);
    assert!(given == Ok(blocks), "{}", String::from_utf8_lossy(all));
    let kinds = counts.into_iter().zip(["proved", "none", "refused"]);
    let told = kinds.filter(|&(count, _)| count > 0);
    let told: Vec<_> = told
        .map(|(count, kind)| format!("{count} {kind}"))
        .collect();
    told.join(", ")
}
