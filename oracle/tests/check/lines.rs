//! Which lines hold, and which chains are good.

use oracle::plain::check::{self, Derivation, Side, Stated};
use oracle::plain::law::{LAWS, put};
use oracle::plain::term::{ONE, PRODUCT, SUM, Term, ZERO};
use oracle::plain::{job, tried};
use oracle::rust::chain;
use oracle::{Call, Entry, PROGRAM_ROOM, PROGRAM_SLOTS, checked};

use super::given;

#[test]
fn chains_may_start_at_the_larger_side_and_come_back() {
    let forth = "step=mul_one_left forward at=. to=* 1 v0\n";
    let back = "step=mul_one_left back at=. to=v0\n";
    assert_eq!(given(&format!("left=v0\nright=* 1 v0\n{forth}")), 0);
    assert_eq!(given(&format!("left=* 1 v0\nright=v0\n{back}")), 0);
    assert_eq!(given(&format!("left=v0\nright=v0\n{forth}{back}")), 0);
    assert_eq!(given("left=v0\nright=v0\n"), 11);
    for direction in ["forward", "back"] {
        let line = format!("step=add_comm {direction} at=r to=* v1 + v0 v0\n");
        let text = format!("left=* v1 + v0 v0\nright=* v1 + v0 v0\n{line}");
        assert_eq!(given(&text), 0);
    }
    assert_eq!(
        given("left=v0\nright=v0\nstep=add_zero_right forward at=. to=v0\n"),
        12
    );
}

#[test]
fn every_law_is_a_line_both_ways_at_every_place() {
    let parts = ["* v1 1", "v2", "+ 0 v3"].map(|text| Term::read(text.as_bytes()).unwrap());
    let binding = [0, 1, 2].map(|letter: usize| Some(parts[letter].run()));
    let contexts = [(".", "", ""), ("l", "+ ", " v0"), ("rl", "* v1 + ", " v2")];
    for law in &LAWS {
        let sides = [law.left, law.right].map(|side| Term::of(put(side, &binding).unwrap()).show());
        for (place, before, behind) in contexts {
            let [left, right] = [0, 1].map(|at: usize| format!("{before}{}{behind}", sides[at]));
            let text = |left: &str, direction, right: &str| {
                let name = law.name;
                format!(
                    "left={left}\nright={right}\nstep={name} {direction} at={place} to={right}\n"
                )
            };
            assert_eq!(given(&text(&left, "forward", &right)), 0, "{}", law.name);
            assert_eq!(given(&text(&right, "back", &left)), 0, "{}", law.name);
            let commutes = law.name == "add_comm";
            let swapped = if commutes { 0 } else { 12 };
            assert_eq!(given(&text(&left, "back", &right)), swapped, "{}", law.name);
            assert_eq!(
                given(&text(&right, "forward", &left)),
                swapped,
                "{}",
                law.name
            );
        }
    }
}

#[test]
fn a_letter_met_twice_meets_equal_terms() {
    let line = |left: &str, law: &str, right: &str| {
        given(&format!(
            "left={left}\nright={right}\nstep={law} at=. to={right}\n"
        ))
    };
    assert_eq!(
        line("+ * v0 v1 * v0 v2", "left_distrib forward", "* v0 + v1 v2"),
        0
    );
    assert_eq!(
        line("+ * v0 v1 * v3 v2", "left_distrib forward", "* v0 + v1 v2"),
        12
    );
    assert_eq!(
        line("+ * v0 v1 * v0 v2", "left_distrib forward", "* v3 + v1 v2"),
        12
    );
    assert_eq!(
        line("+ * v0 v2 * v1 v2", "right_distrib forward", "* + v0 v1 v2"),
        0
    );
    assert_eq!(
        line("+ * v0 v2 * v1 v3", "right_distrib forward", "* + v0 v1 v2"),
        12
    );
    assert_eq!(
        line("* + v0 v1 v2", "right_distrib back", "+ * v0 v2 * v1 v3"),
        12
    );
    assert_eq!(line("* 0 v1", "zero_mul back", "0"), 0);
    assert_eq!(line("* 0 v1", "mul_zero back", "0"), 12);
    assert_eq!(line("* 0 0", "mul_zero back", "0"), 0);
    assert_eq!(line("0", "zero_mul forward", "* 0 + v1 * v2 0"), 0);
    assert_eq!(line("0", "mul_zero forward", "* 0 v1"), 12);
}

/// Terms of up to so many nodes over one letter, 0 and 1.
fn terms_up_to(size: usize) -> Vec<Term> {
    let mut by_size: Vec<Vec<Vec<u16>>> = vec![vec![vec![0], vec![ZERO], vec![ONE]]];
    for count in 1..=(size - 1) / 2 {
        let mut runs = Vec::new();
        for left in 0..count {
            for one in &by_size[left] {
                for other in &by_size[count - 1 - left] {
                    for operator in [SUM, PRODUCT] {
                        runs.push([&[operator], &one[..], other].concat());
                    }
                }
            }
        }
        by_size.push(runs);
    }
    by_size.into_iter().flatten().map(Term::of).collect()
}

/// Every line that can be stated between small terms is judged alike by all judges.
#[test]
fn judges_agree_on_all_small_lines() {
    let places = [&[][..], &[Side::L], &[Side::R], &[Side::R, Side::L]];
    let mut good = 0;
    for source in terms_up_to(3) {
        for result in terms_up_to(5) {
            for (law, place) in (0..LAWS.len()).flat_map(|law| places.map(|place| (law, place))) {
                for forward in [true, false] {
                    let stated = Stated {
                        law,
                        forward,
                        place: place.to_vec(),
                        result: result.clone(),
                    };
                    let plain = check::is_line(&source, &stated);
                    assert_eq!(plain, tried::is_line(&source, &stated), "{}", stated.show());
                    assert_eq!(plain, chain::is_line(&source, &stated), "{}", stated.show());
                    good += usize::from(plain);
                }
            }
        }
    }
    assert!(good > 300, "{good} good lines");
}

#[test]
fn lines_of_proved_answers_are_good() {
    let sides = ["+ v0 0", "+ 0 v0", "* 1 v0", "* v0 v0", "+ 0 * 1 v0"];
    let limits = ["4", "9", "4", "1000"];
    let call = Call {
        entry: Entry::Find,
        slots: PROGRAM_SLOTS,
        room: PROGRAM_ROOM,
        job: job::write(&[&["v0"], &sides[..], &limits].concat()),
    };
    let answer = checked::answer(&call).unwrap().expect("blocks");
    let derivations = check::derivations(&answer);
    assert_eq!(derivations.len(), 4);
    for text in &derivations {
        assert_eq!(given(text), 0, "{text}");
        let derivation = Derivation::read(text.as_bytes()).expect("a derivation");
        assert_eq!(derivation.show(), *text);
    }
    assert!(derivations[3].lines().count() > 4);
}
