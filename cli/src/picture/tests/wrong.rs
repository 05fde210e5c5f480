//! Answers that cannot be drawn: each is told in a sentence.

use super::super::draw;
use super::proved;
use crate::names::Names;

const WHOLE: &str = "; draw the whole answer as FIND or WEIGH printed it";

fn told(answer: &[u8]) -> String {
    draw("wrong", answer, &Names::default(), None).unwrap_err()
}

/// Three lines on `+ v0 * v1 v2`; the derivation's are lines 7 to 9 of the answer.
fn right() -> String {
    let terms = [
        "+ v0 * v1 v2",
        "+ v0 * v2 v1",
        "+ * v1 v2 v0",
        "+ v0 * v1 v2",
    ];
    proved(&terms.map(str::to_owned), "l")
}

/// What is told once a piece of the answer is another.
fn with(piece: &str, other: &str) -> String {
    let right = right();
    assert!(right.contains(piece) && draw("", right.as_bytes(), &Names::default(), None).is_ok());
    told(right.replacen(piece, other, 1).as_bytes())
}

#[test]
fn what_is_no_proved_answer_is_told() {
    for empty in ["", "\n\r\n \n", "\u{feff}"] {
        assert_eq!(
            told(empty.as_bytes()),
            format!("the answer is empty{WHOLE}")
        );
    }
    let none = "the answer is a none: there is no derivation to draw";
    let none = format!("line 1: {none}; widen the job's limits and ask again");
    assert_eq!(
        told(b"answer=none\nleft=v0\nright=v1\nexpanded=1\ncut=no\n"),
        none
    );
    let refused = "the answer is a refusal: there is no derivation to draw";
    let refused = format!("line 1: {refused}; mend the job and ask again");
    assert_eq!(told(b"answer=refused\nnumber=6\n"), refused);
    let other = format!("line 1: `maybe` is no answer{WHOLE}");
    assert_eq!(told(b"answer=maybe\n"), other);
    let words = format!("there is no line answer=proved or answer=atmost{WHOLE}");
    assert_eq!(told(b"same=yes\nleft=v0\nright=v0\n"), words);
    assert_eq!(
        told(b"left it\n"),
        format!("line 1: this is no line of an answer{WHOLE}")
    );
    let bytes = "line 2: this is no UTF-8 text; save the answer as UTF-8";
    assert_eq!(told(b"answer=proved\nleft=\xff\n"), bytes);
}

#[test]
fn a_header_and_windows_line_ends_change_nothing() {
    let one = format!("# a.job\r\n{}", right().replace('\n', "\r\n"));
    let plain = draw("one", right().as_bytes(), &Names::default(), None);
    assert_eq!(draw("one", one.as_bytes(), &Names::default(), None), plain);
}

#[test]
fn a_wrong_line_is_told() {
    let line = |why: &str| format!("line 7: {why}{WHOLE}");
    let told = |piece: &str, other: &str| with(piece, other);
    assert_eq!(
        told("add_comm f", "mul_comm f"),
        line("`mul_comm` is none of the 10 laws")
    );
    assert_eq!(
        told("forward", "sideways"),
        line("`sideways` is neither forward nor back")
    );
    for place in ["", "x", ".l", "l.", "L"] {
        let why = format!("`{place}` is no place: a dot, or l and r");
        assert_eq!(told("at=l", &format!("at={place}")), line(&why));
    }
    let leads = |place: &str, which: &str| {
        line(&format!(
            "the place `{place}` leads out of the term {which} it"
        ))
    };
    assert_eq!(told("at=l", "at=lr"), leads("lr", "before"));
    assert_eq!(
        told("at=l to=+ v0 * v2 v1", "at=rr to=+ * v2 v1 v0"),
        leads("rr", "after")
    );
    let long = "r".repeat(100_000);
    let cut = format!("{}…", &long[..24]);
    assert_eq!(told("at=l", &format!("at={long}")), leads(&cut, "before"));
    assert_eq!(
        told("to=+ v0 * v2 v1", "to=+ v0 * v2"),
        line("what stands behind to= is no term")
    );
    let four = line("a step is a law, forward or back, at= and to=, and this is not");
    for (piece, other) in [
        (" at=l", ""),
        ("to=", "so="),
        ("at=l", "on=l"),
        (" forward at=l to=", " "),
    ] {
        assert_eq!(told(piece, other), four);
    }
}

#[test]
fn an_answer_that_is_not_whole_is_told() {
    for (key, line) in [
        ("left", "left=+ v0 * v1 v2\n"),
        ("right", "right=+ v0 * v1 v2\n"),
        ("steps", "steps=3\n"),
    ] {
        assert_eq!(with(line, ""), format!("there is no line {key}={WHOLE}"));
        assert_eq!(
            with(line, &line.repeat(2)).split_once(": ").unwrap().1,
            format!("this is a second {key}{WHOLE}")
        );
    }
    assert_eq!(
        with("left=+ v0", "left=+ v1000"),
        format!("line 2: left is no term{WHOLE}")
    );
    assert_eq!(
        with("right=+ v0", "right=v0"),
        format!("line 3: right is no term{WHOLE}")
    );
    let count = |said: &str, there: usize| {
        format!("line 4: steps is `{said}`, but there are {there} lines step={WHOLE}")
    };
    assert_eq!(with("steps=3", "steps=4"), count("4", 3));
    assert_eq!(with("steps=3", "steps=many"), count("many", 3));
    assert_eq!(
        told(b"answer=proved\nleft=v0\nright=v0\nsteps=0\n"),
        count("0", 0)
    );
    let last = "the last line leads to another term than right, which is in line 3";
    assert_eq!(
        with("right=+ v0 * v1 v2", "right=v0"),
        format!("line 9: {last}{WHOLE}")
    );
    let more = proved(&vec!["v0".to_owned(); 18], ".");
    let most = "a derivation has at most 16 lines, and this is one more";
    assert_eq!(told(more.as_bytes()), format!("line 23: {most}{WHOLE}"));
}

/// An answer of WEIGH has a line `total`, and up to 99 lines.
#[test]
fn a_derivation_of_weigh_may_be_longer() {
    let weighed = |lines: usize| {
        let answer = proved(&vec!["v0".to_owned(); lines + 1], ".");
        answer.replacen("expanded=", "total=99\nexpanded=", 1)
    };
    let drawn = |lines| draw("long", weighed(lines).as_bytes(), &Names::default(), None);
    assert!(drawn(99).unwrap().contains("a derivation of 99 lines"));
    let most = "a derivation has at most 99 lines, and this is one more";
    assert_eq!(drawn(100), Err(format!("line 107: {most}{WHOLE}")));
    let twice = weighed(3).replacen("total=99\n", "total=9\ntotal=9\n", 1);
    let second = format!("line 6: this is a second total{WHOLE}");
    assert_eq!(told(twice.as_bytes()), second);
}

/// The text of a derivation, as CHECK takes it, is drawn as the answer with the same lines; what is wrong with it is for CHECK to say.
#[test]
fn a_derivation_without_the_other_lines_is_drawn_too() {
    let right = right();
    let is_kept = |line: &&str| {
        let key = line.split('=').next();
        matches!(key, Some("left" | "right" | "step"))
    };
    let lines = right.lines().filter(is_kept);
    let text: String = lines.map(|line| format!("{line}\n")).collect();
    let drawn = |text: &str| draw("name", text.as_bytes(), &Names::default(), None);
    assert_eq!(drawn(&text), drawn(&right));
    let with = |piece: &str, other: &str| drawn(&text.replacen(piece, other, 1)).unwrap_err();
    let ask = "; ask puvainy check what is wrong";
    for (piece, other, why) in [
        ("left=+", "left=", "line 1: left is no term"),
        ("left=+ v0 * v1 v2\n", "", "there is no line left="),
        (
            "add_comm",
            "add_com",
            "line 3: `add_com` is none of the 10 laws",
        ),
        (
            "right=+",
            "right=*",
            "line 5: the last line leads to another term than right, which is in line 2",
        ),
    ] {
        assert_eq!(with(piece, other), format!("{why}{ask}"));
    }
    let sides = &text[..text.find("step=").unwrap()];
    assert_eq!(
        drawn(sides).unwrap_err(),
        format!("there is no line answer=proved or answer=atmost{WHOLE}")
    );
    let step = "step=add_comm forward at=. to=+ v0 v0\n";
    let long = format!("left=+ v0 v0\nright=+ v0 v0\n{}", step.repeat(200));
    assert!(drawn(&long).unwrap().contains("a derivation of 200 lines"));
}

#[test]
fn lines_that_are_not_known_are_passed_over() {
    let known = draw("name", right().as_bytes(), &Names::default(), None);
    let more = right().replace("uses=", "total=3\nspared=2\nuses=");
    assert_eq!(
        draw("name", more.as_bytes(), &Names::default(), None),
        known
    );
}

/// Whatever bytes an answer has, of one block or several, it is drawn or told in one line without a full stop.
#[test]
fn damaged_answers_are_drawn_or_told() {
    let none = "answer=none\nleft=+ v0 * v1 v2\nright=v0\nexpanded=1\ncut=no\n";
    let right = [&right(), none, "answer=refused\nnumber=7\n"].concat();
    let right = right.into_bytes();
    let check = |bytes: &[u8]| {
        if let Err(why) = draw("name", bytes, &Names::default(), None) {
            assert!(
                !why.contains(char::is_control) && !why.ends_with('.'),
                "{why}"
            );
        }
    };
    for index in 0..right.len() {
        check(&right[..index]);
        for byte in [
            0, b'\n', b' ', b'+', b'=', b'l', b'v', b'c', b'9', 0x1b, 0xff,
        ] {
            let mut damaged = right.clone();
            damaged[index] = byte;
            check(&damaged);
        }
    }
}
