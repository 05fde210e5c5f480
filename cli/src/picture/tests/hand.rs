//! Answers with a derivation in hand.

use super::super::draw;
use super::{check_page, proved, shapes, words};
use crate::names::Names;

const WHOLE: &str = "; draw the whole answer as FIND or WEIGH printed it";

fn drawn(answer: &str, page: Option<usize>) -> Result<String, String> {
    draw("held", answer.as_bytes(), &Names::default(), page)
}

/// The answer with so many lines on terms of so many leaves, proved, and in hand.
fn both(lines: usize, leaves: usize) -> [String; 2] {
    let term = |index: usize| shapes(leaves)[index % 4].clone();
    let terms: Vec<String> = (0..=lines).map(term).collect();
    let with = |answer: &str, more: &str| {
        let of_weigh = format!("total=99\n{more}expanded=");
        let proved = proved(&terms, ".").replacen("expanded=", &of_weigh, 1);
        proved.replacen("answer=proved", answer, 1)
    };
    [
        with("answer=proved", ""),
        with("answer=atmost", "atleast=92\n"),
    ]
}

/// What is told once a piece of the answer in hand is another.
fn with(piece: &str, other: &str) -> String {
    let [_, held] = both(3, 3);
    assert!(held.contains(piece) && drawn(&held, None).is_ok());
    drawn(&held.replacen(piece, other, 1), None).unwrap_err()
}

#[test]
fn it_is_drawn_as_a_proved_one_and_said_to_be_in_hand() {
    for (lines, said) in [
        (1, "a derivation of 1 line"),
        (3, "a derivation of 3 lines"),
    ] {
        let [proved, held] = both(lines, 3).map(|answer| drawn(&answer, None).unwrap());
        let said = format!(">held: {said}");
        assert!(proved.contains(&format!("{said}</text>")), "{proved}");
        assert_eq!(held, proved.replacen(&said, &format!("{said}, in hand"), 1));
        check_page(&held);
    }
}

#[test]
fn each_page_of_a_long_one_says_so() {
    let [_, held] = both(99, 16);
    let pages: Vec<_> = (1..)
        .map_while(|page| drawn(&held, Some(page)).ok())
        .collect();
    assert!(pages.len() > 9);
    let said = "a derivation of 99 lines, in hand";
    for (number, page) in (1..).zip(&pages) {
        check_page(page);
        let heading = page.lines().find(|line| line.starts_with("<text")).unwrap();
        let due = format!("held: {said}, page {number} of {}", pages.len());
        assert_eq!(words(heading), due);
    }
}

#[test]
fn one_that_is_not_whole_is_told() {
    for (line, key) in [("total=99\n", "total"), ("atleast=92\n", "atleast")] {
        assert_eq!(with(line, ""), format!("there is no line {key}={WHOLE}"));
        let second = with(line, &line.repeat(2));
        let (_, told) = second.split_once(": ").unwrap();
        assert_eq!(told, format!("this is a second {key}{WHOLE}"));
    }
    for (key, line, value) in [("total", 5, "99"), ("atleast", 6, "92")] {
        for wrong in ["", "+9", "09", "9 ", "x", "100", "18446744073709551616"] {
            let told = with(&format!("{key}={value}\n"), &format!("{key}={wrong}\n"));
            let due = format!("line {line}: {key} is `{wrong}`, which is no number up to 99");
            assert_eq!(told, format!("{due}{WHOLE}"));
        }
    }
    let above = "line 6: atleast is 92, and total, which is 91, is less";
    assert_eq!(with("total=99", "total=91"), format!("{above}{WHOLE}"));
    let [_, held] = both(3, 3);
    let lightest = held.replacen("atleast=92", "atleast=99", 1);
    assert_eq!(drawn(&lightest, None), drawn(&held, None));
}

/// A proved answer has no such line, nor has a derivation as CHECK takes it.
#[test]
fn atleast_stands_in_an_atmost_alone() {
    let alone = format!("line 6: atleast stands in an answer=atmost alone{WHOLE}");
    assert_eq!(with("answer=atmost", "answer=proved"), alone);
    let [_, held] = both(3, 3);
    let is_kept = |line: &&str| {
        let key = line.split('=').next();
        matches!(key, Some("left" | "right" | "step" | "atleast"))
    };
    let lines = held.lines().filter(is_kept);
    let text: String = lines.map(|line| format!("{line}\n")).collect();
    let none = format!("there is no line answer=proved or answer=atmost{WHOLE}");
    assert_eq!(drawn(&text, None), Err(none));
}
