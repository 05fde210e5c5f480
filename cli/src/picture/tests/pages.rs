//! Long paths, cut into pages.

use std::collections::BTreeSet;

use super::super::draw;
use super::{check_page, proved, shapes, text_value, value, words};
use crate::names::Names;

fn drawn(answer: &str, page: Option<usize>) -> Result<String, String> {
    draw("long", answer.as_bytes(), &Names::default(), page)
}

/// The pages of a picture, each by itself, as far as there are any.
fn pages(answer: &str) -> Vec<String> {
    (1..)
        .map_while(|page| drawn(answer, Some(page)).ok())
        .collect()
}

/// Sixteen lines on terms of so many leaves.
fn long(leaves: usize) -> String {
    let terms: Vec<String> = (0..17)
        .map(|index| shapes(leaves)[index % 4].clone())
        .collect();
    proved(&terms, ".")
}

/// How many text elements of a page hold just these words.
fn holds(page: &str, wanted: &str) -> usize {
    let texts = page.lines().filter(|element| element.starts_with("<text"));
    texts.filter(|element| words(element) == wanted).count()
}

#[test]
fn each_line_and_each_term_of_a_long_path_is_on_one_page() {
    for leaves in [2, 3, 5, 8, 12, 16] {
        let pages = pages(&long(leaves));
        assert!(pages.len() > 1, "{leaves} leaves");
        let lines = (1..=16).map(|line| format!("line {line}"));
        let captions = (1..16).map(|line| format!("after {line}"));
        for wanted in lines
            .chain(captions)
            .chain(["left".to_owned(), "right".to_owned()])
        {
            let times: usize = pages.iter().map(|page| holds(page, &wanted)).sum();
            assert_eq!(times, 1, "{wanted}, {leaves} leaves");
        }
        for (index, page) in pages.iter().enumerate() {
            check_page(page);
            let title = format!("long: a derivation of 16 lines, page {} of ", index + 1);
            assert_eq!(holds(page, &format!("{title}{}", pages.len())), 1);
            assert_eq!(holds(page, "the next line replaces this"), 1);
        }
    }
}

/// On a page no colour has two arrows, two parts that are replaced or two that were put there.
#[test]
fn a_colour_belongs_to_one_line_of_a_page() {
    let terms: Vec<String> = (0..17).map(|index| format!("v{}", index % 2)).collect();
    let pages = pages(&proved(&terms, "."));
    assert!(pages.len() > 1);
    for page in pages {
        let arrows = page.lines().filter(|element| element.contains(">line "));
        let arrows = arrows.map(|element| ("arrow", text_value(element, "fill").unwrap()));
        let outlines = page.lines().filter(|element| {
            let is_sample = element.contains(r#" width="26" "#);
            element.starts_with("<rect") && element.contains("stroke-width") && !is_sample
        });
        let outlines = outlines.map(|element| {
            let is_dashed = element.contains("stroke-dasharray");
            let kind = if is_dashed { "put there" } else { "replaced" };
            (kind, text_value(element, "stroke").unwrap())
        });
        let coloured: Vec<_> = arrows.chain(outlines).collect();
        let different: BTreeSet<_> = coloured.iter().collect();
        assert_eq!(different.len(), coloured.len(), "{coloured:?}");
    }
}

#[test]
fn a_page_begins_with_an_arrow_unless_it_is_the_first() {
    for (index, page) in pages(&long(12)).iter().enumerate() {
        let first = page
            .lines()
            .filter(|element| element.starts_with("<text"))
            .nth(1)
            .unwrap();
        assert_eq!(words(first).starts_with("line "), index > 0, "{first}");
    }
}

/// In the picture of all pages each has its view, which shows just its frame.
#[test]
fn all_pages_stand_one_below_the_other() {
    let (answer, pages) = (long(8), pages(&long(8)));
    let all = drawn(&answer, None).unwrap();
    let mut bottom = 0.0;
    for (index, page) in pages.iter().enumerate() {
        let id = format!("<view id=\"page-{}\"", index + 1);
        let view = all.lines().find(|line| line.starts_with(&id)).unwrap();
        let view = super::text_value(view, "viewBox").unwrap();
        let view: Vec<f64> = view.split(' ').map(|part| part.parse().unwrap()).collect();
        let (wide, tall) = check_page(page);
        assert_eq!((view[0], view[2], view[3]), (0.0, wide, tall));
        assert!(
            view[1] >= bottom,
            "page {} overlaps the one above",
            index + 1
        );
        bottom = view[1] + tall;
        let (_, body) = page.split_once("</title>\n").unwrap();
        let group = format!("<g transform=\"translate(0 {})\">\n", view[1]);
        let group = group + body.strip_suffix("</svg>\n").unwrap() + "</g>\n";
        assert!(all.contains(&group), "page {} is another one", index + 1);
    }
    assert_eq!(value(all.lines().next().unwrap(), "height"), bottom);
    assert_eq!(all.matches("<view ").count(), pages.len());
}

#[test]
fn a_page_that_there_is_not_is_told() {
    let count = pages(&long(16)).len();
    for page in [0, count + 1, usize::MAX] {
        let why = drawn(&long(16), Some(page)).unwrap_err();
        let all = format!("the picture has {count} pages; ask for one of 1 to {count}");
        assert_eq!(why, format!("there is no page {page}: {all}"));
    }
    let short = proved(&["+ v0 v1".to_owned(), "+ v1 v0".to_owned()], ".");
    let why = drawn(&short, Some(2)).unwrap_err();
    assert_eq!(
        why,
        "there is no page 2: the picture has 1 page; ask for page 1"
    );
}
