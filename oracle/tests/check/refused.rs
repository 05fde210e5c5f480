//! Refusals: their order, and what they count.

use super::{given, given_with};

fn sum_of(count: usize) -> String {
    format!("{}v0", "+ v0 ".repeat(count - 1))
}

/// A text with every reason to refuse, which are then taken away one by one.
#[test]
fn refusals_come_in_order() {
    let nodes_33 = sum_of(17);
    let six = "+ v1 + v2 + v3 + v4 + v5 v6";
    let text = |left: &str, right: &str, steps: &[&str]| {
        let steps = steps.iter().map(|step| format!("step={step}\n"));
        format!("left={left}\nright={right}\n{}", steps.collect::<String>())
    };
    let refused = |left, right, steps: &[&str]| given_with(&text(left, right, steps), 0);
    let malformed = "add_zero_right forward at= to=";
    assert_eq!(refused("+ v0", &nodes_33, &[malformed]), 1);
    let empty = "add_zero_right forward at=. to=";
    assert_eq!(refused("v0", &nodes_33, &[empty]), 2);
    let grown = format!("add_zero_right forward at=. to={nodes_33}");
    assert_eq!(refused("v0", six, &[&grown]), 3);
    assert_eq!(refused("v0", six, &[]), 4);
    assert_eq!(refused("v0", "v1", &[]), 11);
    let elsewhere = "add_zero_right forward at=. to=+ v1 0";
    assert_eq!(refused("v0", "+ v0 0", &[elsewhere]), 12);
    let a = "add_zero_right forward at=. to=+ v0 0";
    assert_eq!(refused("v0", "+ v0 0", &[a]), 8);
    assert_eq!(given_with(&text("v0", "+ v0 0", &[a]), 11), 8);
    assert_eq!(given_with(&text("v0", "+ v0 0", &[a]), 12), 0);
}

/// One wrong term or line refuses the text wherever it stands.
#[test]
fn one_wrong_line_is_enough() {
    let nodes_33 = sum_of(17);
    let wrong = [
        (1, "step=add_zero forward at=. to=v0\n"),
        (2, "step=mul_one_right back at=. to=\n"),
        (
            3,
            &format!("step=add_zero_right forward at=. to={nodes_33}\n"),
        ),
        (
            4,
            "step=add_comm back at=. to=+ v1 + v2 + v3 + v4 + v5 v6\n",
        ),
        (12, "step=mul_one_right back at=. to=v0\n"),
    ];
    let there = "step=mul_one_right forward at=. to=* v0 1\n";
    let back = "step=mul_one_right back at=. to=v0\n";
    for (number, line) in wrong {
        for at in (0..=10).step_by(2) {
            let mut lines = [there, back].repeat(5);
            lines.insert(at, line);
            let text = format!("left=v0\nright=v0\n{}", lines.concat());
            assert_eq!(given(&text), number, "{line}");
        }
    }
}

#[test]
fn letters_count_in_all_terms_together() {
    let pair = |letter: usize| {
        format!("step=mul_zero forward at=. to=* v{letter} 0\nstep=mul_zero back at=. to=0\n")
    };
    let text = |letters: std::ops::Range<usize>| {
        format!("left=0\nright=0\n{}", letters.map(pair).collect::<String>())
    };
    assert_eq!(given(&text(0..6)), 0);
    assert_eq!(given(&text(0..7)), 4);
    assert_eq!(given(&(text(0..6) + &pair(5))), 0);
    assert_eq!(given(&(text(0..6) + &pair(999))), 4);
}
