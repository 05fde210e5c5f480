//! Answers with several blocks.

use super::super::draw;
use super::{check_page, extent, proved, shapes, text_value, value, words};
use crate::names::Names;

const WHOLE: &str = "; draw the whole answer as FIND or WEIGH printed it";

fn drawn(answer: &str, names: &Names, page: Option<usize>) -> Result<String, String> {
    draw("many", answer.as_bytes(), names, page)
}

fn told(answer: &str) -> String {
    drawn(answer, &Names::default(), None).unwrap_err()
}

/// One line from `+ v0 v1` to another term.
fn one_line(right: &str) -> String {
    proved(&["+ v0 v1".to_owned(), right.to_owned()], ".")
}

fn none(left: &str, right: &str) -> String {
    format!("answer=none\nleft={left}\nright={right}\nexpanded=1\ncut=no\n")
}

const REFUSED: &str = "answer=refused\nnumber=7\n";

/// A derivation, a none, one refused, and a longer derivation.
fn mixed() -> String {
    let terms: Vec<String> = (0..17).map(|index| shapes(8)[index % 4].clone()).collect();
    let left = &terms[0];
    let first = proved(&[left.clone(), "* v0 v1".to_owned()], ".");
    [
        first,
        none(left, "v1"),
        REFUSED.to_owned(),
        proved(&terms, "."),
    ]
    .concat()
}

/// The words of all texts of a picture.
fn texts(picture: &str) -> Vec<String> {
    let texts = picture.lines().filter(|line| line.starts_with("<text"));
    texts.map(words).collect()
}

/// The heading of each page.
fn headings(answer: &str) -> Vec<String> {
    let pages = (1..).map_while(|page| drawn(answer, &Names::default(), Some(page)).ok());
    let heading = |page: String| {
        check_page(&page);
        texts(&page)[0].clone()
    };
    pages.map(heading).collect()
}

#[test]
fn each_block_has_pages_of_its_own_in_order() {
    let headings = headings(&mixed());
    let count = headings.len();
    assert!(count > 5);
    for (page, heading) in (1..).zip(headings) {
        let shows = match page {
            1 => "right 1 of 4: a derivation of 1 line",
            2 => "right 2 of 4: a none",
            3 => "right 3 of 4: refused by 7",
            _ => "right 4 of 4: a derivation of 16 lines",
        };
        assert_eq!(heading, format!("many, {shows}, page {page} of {count}"));
    }
}

#[test]
fn all_pages_are_of_one_width_and_stand_one_below_the_other() {
    let all = drawn(&mixed(), &Names::default(), None).unwrap();
    assert!(all.contains("<title>many: 4 right sides</title>"));
    let views: Vec<&str> = all
        .lines()
        .filter(|line| line.starts_with("<view "))
        .collect();
    assert_eq!(views.len(), headings(&mixed()).len());
    let mut bottom = 0.0;
    for (page, view) in (1..).zip(views) {
        let one = drawn(&mixed(), &Names::default(), Some(page)).unwrap();
        let (wide, tall) = check_page(&one);
        let view = text_value(view, "viewBox").unwrap().split(' ');
        let view: Vec<f64> = view.map(|part| part.parse().unwrap()).collect();
        assert_eq!((view[0], view[2], view[3]), (0.0, wide, tall));
        assert!(view[1] >= bottom);
        bottom = view[1] + tall;
    }
    let head = all.lines().next().unwrap();
    assert_eq!(value(head, "height"), bottom);
}

/// The block's own picture, as its answer alone is drawn, but for the heading.
#[test]
fn a_block_is_drawn_as_it_is_alone() {
    let (one, other) = (one_line("+ v1 v0"), one_line("* v1 v0"));
    let both = [one, other.clone()].concat();
    let alone = drawn(&other, &Names::default(), None).unwrap();
    let page = drawn(&both, &Names::default(), Some(2)).unwrap();
    let rest = ", right 2 of 2: from + v0 v1 to * v1 v0, page 2 of 2";
    let alone = alone.replace(": from + v0 v1 to * v1 v0", rest);
    let heading = "many, right 2 of 2: a derivation of 1 line, page 2 of 2";
    assert_eq!(page, alone.replace("many: a derivation of 1 line", heading));
}

#[test]
fn a_block_without_a_derivation_has_a_card() {
    let names = Names::read(b"v0 Orders\nv1 North stock\nv9 Returns\n").unwrap();
    let left = "+ ".repeat(15) + &["v0"; 16].join(" ");
    let right = "* ".repeat(15) + &["v1"; 16].join(" ");
    let first = proved(&[left.clone(), "* v0 v1".to_owned()], ".");
    let answer = [&first, &none(&left, &right), REFUSED].concat();
    let cards = [
        vec![
            "left",
            &left,
            "right",
            &right,
            "no derivation was found within the job's limits",
            "v0",
            "Orders",
            "v1",
            "North stock",
        ],
        vec!["FIND would note more terms than there are slots"],
    ];
    let count = (1..)
        .map_while(|page| drawn(&answer, &names, Some(page)).ok())
        .count();
    for (page, due) in (count - 1..).zip(cards) {
        let card = drawn(&answer, &names, Some(page)).unwrap();
        check_page(&card);
        assert_eq!(texts(&card)[1..], due);
        let texts = card
            .lines()
            .filter_map(|line| match line.starts_with("<text") {
                true => extent(line),
                false => None,
            });
        let texts: Vec<_> = texts.collect();
        for (index, one) in texts.iter().enumerate() {
            let clear = |other: &[f64; 4]| {
                one[0] >= other[2] || other[0] >= one[2] || one[1] >= other[3] || other[1] >= one[3]
            };
            assert!(texts[..index].iter().all(clear), "{card}");
        }
    }
}

#[test]
fn a_long_title_leaves_room_for_which_right_side_it_is() {
    let answer = [one_line("+ v1 v0"), one_line("* v1 v0")].concat();
    let title = "long title ".repeat(20);
    let page = draw(&title, answer.as_bytes(), &Names::default(), Some(2)).unwrap();
    check_page(&page);
    let rest = "…, right 2 of 2: a derivation of 1 line, page 2 of 2";
    assert!(texts(&page)[0].ends_with(rest));
}

#[test]
fn sixteen_blocks_are_drawn_and_one_more_is_told() {
    let block = one_line("+ v1 v0");
    assert_eq!(headings(&block.repeat(16)).len(), 16);
    let more = "line 129: an answer has at most 16 blocks, and this is one more";
    assert_eq!(told(&block.repeat(17)), format!("{more}{WHOLE}"));
}

#[test]
fn blocks_without_any_derivation_are_told() {
    let answer = [&none("v0", "v1"), REFUSED].concat();
    let none = "none of the answer's 2 blocks is proved: there is no derivation to draw; \
        widen the job's limits or give more slots, and ask again";
    assert_eq!(told(&answer), none);
}

/// Blocks of one answer share their left side, and none is refused but by 7.
#[test]
fn several_answers_are_told() {
    let several = "a second answer begins here, so the file holds several; \
        draw one at a time, each from a file of its own";
    let block = one_line("+ v1 v0");
    let headed = format!("# a.job\n{block}# b.job\n{block}");
    assert_eq!(told(&headed), format!("line 10: {several}"));
    for other in [&none("v0", "v1"), "answer=refused\nnumber=6\n"] {
        let line = format!("line 9: {several}");
        assert_eq!(told(&[&block, other].concat()), line);
    }
    let first = ["answer=refused\nnumber=6\n", &block].concat();
    assert_eq!(told(&first), format!("line 3: {several}"));
}

#[test]
fn a_block_that_is_not_whole_is_told() {
    let block = one_line("+ v1 v0");
    let told = |other: &str| told(&[&block, other].concat());
    let lacks = |key: &str| format!("line 9: this block has no line {key}={WHOLE}");
    assert_eq!(told("answer=none\n"), lacks("left"));
    assert_eq!(told("answer=none\nleft=+ v0 v1\n"), lacks("right"));
    assert_eq!(told("answer=refused\n"), lacks("number"));
    assert_eq!(
        told("answer=proved\nleft=+ v0 v1\nright=v0\n"),
        lacks("steps")
    );
    let maybe = format!("line 9: `maybe` is no answer{WHOLE}");
    assert_eq!(told("answer=maybe\n"), maybe);
    let term = format!("line 11: right is no term{WHOLE}");
    assert_eq!(told(&none("+ v0 v1", "v")), term);
}
