//! Each fault by itself, and where it is told.

use super::*;

/// A fault, what is put in the place of what to make it, and where it is told.
type Case = (Fault, &'static str, &'static str, &'static str);

const FAULTS: [Case; 42] = [
    (Fault::Mark, "left", "\u{feff}left", "the whole text"),
    (Fault::Mark, "left", "l\0e\0f\0t\0", "the whole text"),
    (Fault::Answer, "left", "answer=proved\nleft", "line 1"),
    (Fault::Missing, GOOD, "", "line 1 (left)"),
    (Fault::Missing, GOOD, "left=v0\n", "line 2 (right)"),
    (Fault::Key, "left", "Left", "line 1 (left)"),
    (Fault::Key, "right=", "step=", "line 2 (right)"),
    (Fault::Step, "step=left", "steps=3\nstep=left", "line 3"),
    (Fault::Step, "step=add", "right=v0\nstep=add", "line 4"),
    (
        Fault::Step,
        "=. to=+ + * v0 v1 * v0 v2 v4\n",
        "=. to=+ + * v0 v1 * v0 v2 v4\n\n",
        "line 6",
    ),
    (
        Fault::End,
        "=. to=+ + * v0 v1 * v0 v2 v4\n",
        "=. to=+ + * v0 v1 * v0 v2 v4",
        "line 5 (step 3)",
    ),
    (Fault::End, GOOD, "left=v0", "line 1 (left)"),
    (
        Fault::Parts,
        " to=+ v4 + * v0 v2 * v0 v1",
        "",
        "line 3 (step 1)",
    ),
    (
        Fault::Parts,
        "left_distrib back at=r to=+ v4 + * v0 v2 * v0 v1",
        "",
        "line 3 (step 1)",
    ),
    (
        Fault::Law,
        "=add_comm",
        "=add_com",
        "line 4 (step 2), law (add_com)",
    ),
    (
        Fault::Law,
        "=add_comm",
        "= add_comm",
        "line 4 (step 2), law",
    ),
    (
        Fault::Law,
        "=add_comm",
        "=add_idem",
        "line 4 (step 2), law (add_idem)",
    ),
    (
        Fault::Direction,
        " forward",
        " Forward",
        "line 4 (step 2), direction (Forward)",
    ),
    (
        Fault::Direction,
        " forward",
        "  forward",
        "line 4 (step 2), direction",
    ),
    (
        Fault::Place,
        "at=. ",
        "at= ",
        "line 5 (step 3), place (at=)",
    ),
    (Fault::Place, "at=. ", ". ", "line 5 (step 3), place (.)"),
    (
        Fault::Place,
        "at=. ",
        "at=.l ",
        "line 5 (step 3), place (at=.l)",
    ),
    (
        Fault::Place,
        "at=. ",
        "at=R ",
        "line 5 (step 3), place (at=R)",
    ),
    (
        Fault::To,
        "at=. to=",
        "at=. ",
        "line 5 (step 3), result (+ + * v0 v1 * v0 v2 v4)",
    ),
    (
        Fault::To,
        "at=. to",
        "at=.  to",
        "line 5 (step 3), result ( to=+ + * v0 v1 * v0 v2 …)",
    ),
    (
        Fault::Return,
        "v2 v4\nstep",
        "v2 v4\r\nstep",
        "line 2 (right)",
    ),
    (
        Fault::Empty,
        "to=+ v4 + * v0 v2 * v0 v1",
        "to=",
        "line 3 (step 1)",
    ),
    (
        Fault::Space,
        "left=+ v4",
        "left=+  v4",
        "line 1 (left), item 2",
    ),
    (
        Fault::Item,
        "to=+ v4",
        "to=+ v1000",
        "line 3 (step 1), item 2 (v1000)",
    ),
    (
        Fault::Item,
        "to=+ v4",
        "to=+ c100",
        "line 3 (step 1), item 2 (c100)",
    ),
    (
        Fault::Part,
        "v0 v1\nstep",
        "v0\nstep",
        "line 3 (step 1), behind item 8",
    ),
    (
        Fault::Left,
        "v0 v1\nstep",
        "v0 v1 v1\nstep",
        "line 3 (step 1), item 10",
    ),
    (
        Fault::Nodes,
        "to=+ v4 + * v0 v2 * v0 v1",
        WIDE,
        "line 3 (step 1), 33 nodes",
    ),
    (
        Fault::Letters,
        "to=+ v4 + * v0 v2 * v0 v1",
        MANY,
        "line 3 (step 1), where v7 is v letter 7",
    ),
    (
        Fault::Letters,
        "to=+ v4 + * v0 v2 * v0 v1",
        MANY_WITH_TABLES,
        "line 3 (step 1), where v7 is v letter 7",
    ),
    (
        Fault::Result,
        "to=+ v4 + * v0 v2 * v0 v1",
        "to=+ c4 + * v0 v2 * v0 v1",
        "line 3 (step 1), which makes + v4 + * v0 v2 * v0 v1",
    ),
    (
        Fault::Match,
        "left=+ v4 * v0 + v2 v1",
        "left=+ v4 + * c0 v2 * c1 v1",
        "line 3 (step 1)",
    ),
    (
        Fault::Outside,
        "at=r to=+ v4 + * v0 v1",
        "at=rlll to=+ v4 + * v0 v1",
        "line 4 (step 2)",
    ),
    (
        Fault::Match,
        "left_distrib back",
        "left_distrib forward",
        "line 3 (step 1)",
    ),
    (
        Fault::Result,
        "to=+ v4 + * v0 v2 * v0 v1",
        "to=+ v4 + * v0 v1 * v0 v2",
        "line 3 (step 1), which makes + v4 + * v0 v2 * v0 v1",
    ),
    (Fault::Match, "at=. ", "at=l ", "line 5 (step 3)"),
    (
        Fault::Stops,
        "right=+ + * v0 v1 * v0 v2 v4",
        "right=v4",
        "line 5 (step 3)",
    ),
];
const WIDE: &str =
    "to=+ v1 + v1 + v1 + v1 + v1 + v1 + v1 + v1 + v1 + v1 + v1 + v1 + v1 + v1 + v1 + v1 v1";
const MANY: &str = "to=+ v5 + v6 v7";
const MANY_WITH_TABLES: &str = "to=+ c5 + v5 + c6 + v6 v7";

/// A derivation of the same three lines with tables that are fixed, beside six v letters of which some come from nowhere.
#[test]
fn c_letters_are_read_and_not_counted() {
    let holds = |text: &str| {
        let mut buffers = Buffers::new(0, Room::Grows);
        buffers.ask(Entry::Check, text.as_bytes()).is_ok()
    };
    let fixed = GOOD.replace("v4", "c99").replace("v2", "c0");
    assert!(holds(&fixed));
    let right = "right=+ + * v0 v1 * v0 c0 c99\n";
    let last = "step=add_comm forward at=. to=+ + * v0 v1 * v0 c0 c99\n";
    let more = |item: &str| {
        let to = format!("+ + + * v0 v1 * v0 c0 c99 * 0 + + v2 v3 + v4 + v5 {item}");
        let zero = "step=add_zero_right forward at=. to=+ + + * v0 v1 * v0 c0 c99 0\n";
        let line = format!("step=zero_mul forward at=r to={to}\n");
        let text = fixed.replacen(right, &format!("right={to}\n"), 1);
        text.replacen(last, &[last, zero, &line].concat(), 1)
    };
    assert!(holds(&more("c1")));
    let (given, found) = fault(more("v6").as_bytes());
    let due = "line 2 (right), where v6 is v letter 7";
    assert_eq!((given, found.place.as_str()), (4, due));
}

#[test]
fn the_place_of_each_fault_is_told() {
    assert!(
        Buffers::new(0, Room::Grows)
            .ask(Entry::Check, GOOD.as_bytes())
            .is_ok()
    );
    for (due, from, to, place) in FAULTS {
        let text = GOOD.replacen(from, to, 1);
        let (given, found) = fault(text.as_bytes());
        assert_eq!((found.fault, found.place.as_str()), (due, place), "{text}");
        assert_eq!(number(due), given, "{text}");
    }
    let (_, found) = fault(&[b' '; 8193]);
    assert_eq!(
        (found.fault, found.place.as_str()),
        (Fault::Long, "the whole text")
    );
    let (_, found) = fault(b"left=v0\nright=v0\n");
    assert_eq!(
        (found.fault, found.place.as_str()),
        (Fault::NoStep, "behind line 2 (right)")
    );
}
