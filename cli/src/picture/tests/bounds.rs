//! Deep and wide terms and long names, which keep within a page.

use super::super::draw;
use super::{check_page, extent, proved, shapes};
use crate::names::Names;

/// Names for `v0` to `v15`, each so many times the text with the letter's number behind it.
fn names(text: &str, times: usize) -> Names {
    let line = |letter| format!("v{letter} {}{letter}\n", text.repeat(times));
    Names::read((0..16).map(line).collect::<String>().as_bytes()).unwrap()
}

/// The nodes of a picture: circles, and the boxes of names.
fn nodes(picture: &str) -> Vec<[f64; 4]> {
    let is_node = |element: &&str| {
        let frame = element.starts_with("<rect") && element.contains(r##"stroke="#20242a""##);
        element.starts_with("<circle") || frame
    };
    picture
        .lines()
        .filter(is_node)
        .map(|element| extent(element).unwrap())
        .collect()
}

/// Whether two nodes overlap, the circles taken as squares.
fn overlap(one: &[f64; 4], other: &[f64; 4]) -> bool {
    one[0] < other[2] && other[0] < one[2] && one[1] < other[3] && other[1] < one[3]
}

/// Draws the terms of so many leaves, each in a path of two lines with itself, and checks the pages.
fn check(leaves: usize, names: &Names) {
    for (shape, term) in shapes(leaves).into_iter().enumerate() {
        let place = if leaves > 2 && shape == 0 { "l" } else { "." };
        let answer = proved(&[term.clone(), term.clone(), term], place);
        let mut drawn = 0;
        let mut page = 1;
        while let Ok(picture) = draw(
            &"long title ".repeat(20),
            answer.as_bytes(),
            names,
            Some(page),
        ) {
            check_page(&picture);
            let nodes = nodes(&picture);
            let high = |node: &[f64; 4]| node[3] - node[1];
            assert!(
                nodes.iter().all(|node| high(node) >= 17.0),
                "{leaves} leaves, too small"
            );
            for (index, node) in nodes.iter().enumerate() {
                let clear = nodes[..index].iter().all(|other| !overlap(node, other));
                assert!(
                    clear,
                    "{leaves} leaves, shape {shape}, page {page}: {node:?}"
                );
            }
            drawn += nodes.len();
            page += 1;
        }
        assert_eq!(
            drawn,
            3 * (2 * leaves - 1),
            "{leaves} leaves, shape {shape}"
        );
    }
}

#[test]
fn letters_keep_within_a_page() {
    (2..=16).for_each(|leaves| check(leaves, &Names::default()));
}

#[test]
fn names_keep_within_a_page() {
    for leaves in 2..=16 {
        check(leaves, &names("A", 1));
        check(leaves, &names("Stock of ", 2));
        check(leaves, &names("W", 195));
        check(leaves, &names("\u{4e16}\u{fdfd}\u{1f600}", 65));
    }
}

#[test]
fn a_term_of_four_digits_letters_keeps_within_a_page() {
    let letters: Vec<String> = (984..1000).map(|letter| format!("v{letter}")).collect();
    let term = "* ".repeat(15) + &letters.join(" ");
    let place = "l".repeat(15);
    let answer = proved(&[term.clone(), term], &place);
    for page in [1, 2] {
        check_page(&draw("wide", answer.as_bytes(), &Names::default(), Some(page)).unwrap());
    }
}
