//! How a text is read: lines, their parts, terms, length.

use super::given;

const A: &str = "step=add_zero_right forward at=. to=+ v0 0\n";
const SIDES: &str = "left=v0\nright=+ v0 0\n";

/// What case A's text gives with another value in its step line.
fn with_step(value: &str) -> u8 {
    given(&format!("{SIDES}step={value}\n"))
}

#[test]
fn every_line_is_in_its_place() {
    let good = format!("{SIDES}{A}");
    assert_eq!(given(&good), 0);
    let lines: Vec<&str> = good.split_inclusive('\n').collect();
    for at in 0..3 {
        let mut missing = lines.clone();
        missing.remove(at);
        assert_eq!(given(&missing.concat()), if at == 2 { 11 } else { 1 });
        let mut exchanged = lines.clone();
        exchanged.swap(at, (at + 1) % 3);
        assert_eq!(given(&exchanged.concat()), 1);
        let mut doubled = lines.clone();
        doubled.insert(at, lines[at]);
        assert_eq!(given(&doubled.concat()), if at == 2 { 12 } else { 1 });
    }
    for more in [
        "\n",
        " ",
        "\0",
        "x",
        "step=",
        "step=\n",
        "proof=\n",
        "left=v0\n",
    ] {
        assert_eq!(given(&(good.clone() + more)), 1, "{more:?}");
        assert_eq!(given(&(more.to_owned() + &good)), 1, "{more:?}");
    }
    assert_eq!(given(&good[..good.len() - 1]), 1);
    // byte 13 belongs to the terms
    assert_eq!(given(&good.replace('\n', "\r\n")), 2);
}

#[test]
fn a_step_line_has_four_parts() {
    let malformed = [
        "",
        " ",
        "add_zero_right",
        "add_zero_right ",
        "add_zero_right forward",
        "add_zero_right forward at=.",
        "add_zero_right forward at=. ",
        "add_zero_right forward at=. + v0 0",
        "add_zero_right forward at=. to",
        "add_zero_right forward at=. to v0",
        "add_zero_right forward at=.to=+ v0 0",
        "add_zero_right forward . to=+ v0 0",
        "add_zero_right forward to=+ v0 0",
        "add_zero_right at=. to=+ v0 0",
        "forward at=. to=+ v0 0",
        "add_zero_right  forward at=. to=+ v0 0",
        "add_zero_right forward  at=. to=+ v0 0",
        "add_zero_right forward at=.  to=+ v0 0",
        " add_zero_right forward at=. to=+ v0 0",
        "add_zero_right\tforward at=. to=+ v0 0",
        "forward add_zero_right at=. to=+ v0 0",
        "add_zero_right forward to=+ v0 0 at=.",
    ];
    for value in malformed {
        assert_eq!(with_step(value), 1, "{value:?}");
    }
}

#[test]
fn laws_directions_and_places_are_written_as_find_writes_them() {
    for law in [
        "",
        "add_zero",
        "add_idem",
        "ADD_ZERO_RIGHT",
        "add_zero_right ",
        "0",
    ] {
        assert_eq!(
            with_step(&format!("{law} forward at=. to=+ v0 0")),
            1,
            "{law:?}"
        );
    }
    for direction in ["", "Forward", "forwards", "backward", "b", "back forward"] {
        let value = format!("add_zero_right {direction} at=. to=+ v0 0");
        assert_eq!(with_step(&value), 1, "{direction:?}");
    }
    for place in [
        "", "..", ".l", "l.", "L", "x", "lx", "l r", "l,r", "lr\r", "\0",
    ] {
        let value = format!("add_zero_right forward at={place} to=+ v0 0");
        assert_eq!(with_step(&value), 1, "{place:?}");
    }
    for place in ["l", "r", "lr", &"l".repeat(8_000)] {
        let value = format!("add_zero_right forward at={place} to=+ v0 0");
        assert_eq!(with_step(&value), 12, "{place:?}");
    }
}

#[test]
fn what_stands_behind_to_is_the_term() {
    let no_terms = [
        "",
        " ",
        "v",
        "v00",
        "v1000",
        "2",
        "+ v0",
        "+ v0 0 ",
        " + v0 0",
        "+ v0  0",
        "+ v0 0\r",
        "v0 + 0",
        "(v0)",
        "V0",
        "to=+ v0 0",
        "+ v0 0 to=v0",
        "é",
    ];
    for value in no_terms {
        let step = format!("add_zero_right forward at=. to={value}");
        assert_eq!(with_step(&step), 2, "{value:?}");
        assert_eq!(given(&format!("left={value}\nright=+ v0 0\n{A}")), 2);
        assert_eq!(given(&format!("left=v0\nright={value}\n{A}")), 2);
        assert_eq!(given(&format!("left=v0\nright={value}\n")), 2);
    }
}

#[test]
fn length_counts_the_whole_text() {
    let long = |length: usize| {
        let step = "step=add_zero_right forward at= to=+ v0 0\n";
        let place = "l".repeat(length - SIDES.len() - step.len());
        given(&format!(
            "{SIDES}{}",
            step.replace("at=", &format!("at={place}"))
        ))
    };
    assert_eq!([8_191, 8_192, 8_193, 70_000].map(long), [12, 12, 1, 1]);
}
