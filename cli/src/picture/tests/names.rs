//! Names in place of letters.

use super::super::draw;
use super::{proved, words};
use crate::names::Names;

/// The words of all text elements.
fn texts(picture: &str) -> Vec<String> {
    picture
        .lines()
        .filter(|element| element.starts_with("<text"))
        .map(words)
        .collect()
}

fn drawn(names: &str) -> String {
    let terms = ["+ * v10 v2 0", "+ 0 * v10 v2"].map(str::to_owned);
    let names = Names::read(names.as_bytes()).unwrap();
    draw("named", proved(&terms, ".").as_bytes(), &names, None).unwrap()
}

#[test]
fn a_name_stands_in_the_trees_and_once_in_the_key() {
    let texts = texts(&drawn("v10 Orders\n"));
    let times = |wanted: &str| texts.iter().filter(|text| *text == wanted).count();
    assert_eq!((times("Orders"), times("v10")), (3, 1));
    assert_eq!((times("v2"), times("0")), (2, 2));
    assert_eq!((times("+ * v10 v2 0"), times("+ 0 * v10 v2")), (1, 1));
}

#[test]
fn the_key_is_in_the_order_of_the_letters() {
    let texts = texts(&drawn("v10 North\nv2 South\nv3 Returns\n"));
    let from = texts.iter().position(|text| text == "v2").unwrap();
    assert_eq!(texts[from..from + 4], ["v2", "South", "v10", "North"]);
    assert!(!texts.iter().any(|text| text == "Returns"));
}

#[test]
fn c_letters_stand_behind_v_letters_in_the_key() {
    let terms = ["* + c10 v2 c2", "* + v2 c10 c2"].map(str::to_owned);
    let names = Names::read(b"c2 Prices\nc10 Stock\nv2 Orders\n").unwrap();
    let picture = draw("tables", proved(&terms, "l").as_bytes(), &names, None).unwrap();
    let texts = texts(&picture);
    let due = ["v2", "Orders", "c2", "Prices", "c10", "Stock"];
    let from = texts.iter().position(|text| text == "v2").unwrap();
    assert_eq!(texts[from..from + 6], due);
    let times = |wanted: &str| texts.iter().filter(|text| *text == wanted).count();
    assert_eq!((times("Prices"), times("c2")), (3, 1));
}

#[test]
fn names_are_escaped() {
    let name = r#"<b>&"'</text>"#;
    let picture = drawn(&format!("v2 {name}\n"));
    assert!(picture.contains(">&lt;b&gt;&amp;&quot;&#x27;&lt;/text&gt;</text>"));
    assert_eq!(
        texts(&picture).iter().filter(|text| *text == name).count(),
        3
    );
    let picture = drawn("v2 a\u{fffe}\u{ffff}b\n");
    assert!(picture.contains(">a\u{fffd}\u{fffd}b</text>"));
}

#[test]
fn a_name_that_is_too_long_is_cut() {
    let name = "Stock ".repeat(33);
    let texts = texts(&drawn(&format!("v2 {name}\nv10 {name}B\n")));
    let cut: Vec<_> = texts.iter().filter(|text| text.ends_with('…')).collect();
    assert_eq!(cut.len(), 6);
    // In the trees the letter stands before the name, in the key beside it.
    let whole = [name.clone(), format!("v2 {name}"), format!("v10 {name}")];
    let begins = |text: &str| whole.iter().any(|whole| whole.starts_with(text));
    for text in cut {
        assert!(
            begins(text.trim_end_matches('…')) && text.len() > 20,
            "{text}"
        );
    }
}

#[test]
fn letters_whose_names_begin_alike_do_not_look_alike() {
    let letters = ["v0", "v1", "v2", "v999"];
    let names = letters.map(|letter| format!("{letter} Warehouse of the region {letter}\n"));
    let names = Names::read(names.concat().as_bytes()).unwrap();
    let side = "+ ".repeat(15) + &letters.repeat(4).join(" ");
    let terms = [side.clone(), side];
    let picture = draw("wide", proved(&terms, ".").as_bytes(), &names, None).unwrap();
    let texts = texts(&picture);
    for letter in letters {
        let begins = |text: &&String| *text == letter || text.starts_with(&format!("{letter} W"));
        // Four leaves in each of two trees, and the letter in the keys of two pages.
        assert_eq!(
            texts.iter().filter(begins).count(),
            10,
            "{letter}: {texts:?}"
        );
    }
}

/// How wide a letter of another script becomes is not known, so the words are held to their width.
#[test]
fn names_in_other_scripts_are_held_to_their_width() {
    let held = |name: &str| {
        let picture = drawn(&format!("v2 {name}\n"));
        let texts = picture
            .lines()
            .filter(|element| element.ends_with(&format!(">{name}</text>")));
        let held: Vec<bool> = texts
            .map(|element| element.contains(" textLength="))
            .collect();
        assert_eq!(held.len(), 3);
        held
    };
    assert_eq!(held("\u{fdfd}\u{4e16}"), [true; 3]);
    assert_eq!(held("Größe Süd"), [false; 3]);
}

#[test]
fn the_same_names_give_the_same_picture() {
    assert_eq!(
        drawn("v2 South\nv10 North\n"),
        drawn("v10 North\n\nv2 South\n")
    );
}
