//! What the tests share: answers made as text, and a picture's elements measured.

mod blocks;
mod bounds;
mod guide;
mod hand;
mod names;
mod pages;
mod wrong;

use super::svg;

/// A proved answer with these terms, each line `add_comm` at the place. Whether a law was used rightly is no matter to the picture.
fn proved(terms: &[String], place: &str) -> String {
    let steps = terms.len() - 1;
    let (left, right) = (&terms[0], &terms[steps]);
    let head = format!("answer=proved\nleft={left}\nright={right}\nsteps={steps}\nexpanded=1\n");
    let line = |term: &String| format!("step=add_comm forward at={place} to={term}\n");
    let lines: String = terms[1..].iter().map(line).collect();
    head + "uses=add_comm\n" + &lines + "proof=(lam x0 (ref x0))\n"
}

/// Terms of so many leaves `v0`, `v1` and so on, with the signs in shapes that are as deep as can be, as wide, and between.
fn shapes(leaves: usize) -> Vec<String> {
    let letters: Vec<String> = (0..leaves).map(|leaf| format!("v{leaf}")).collect();
    vec![
        "+ ".repeat(leaves - 1) + &letters.join(" "),
        letters.join(" + ").replacen("v0 ", "", 1) + " v0",
        balanced(&letters),
        format!("* {} {}", balanced(&letters[..1]), balanced(&letters[1..])),
    ]
}

fn balanced(letters: &[String]) -> String {
    match letters {
        [letter] => letter.clone(),
        _ => {
            let (left, right) = letters.split_at(letters.len() / 2);
            format!("* {} {}", balanced(left), balanced(right))
        }
    }
}

/// The number that an attribute of an element holds.
fn value(element: &str, attribute: &str) -> f64 {
    text_value(element, attribute).unwrap().parse().unwrap()
}

fn text_value<'a>(element: &'a str, attribute: &str) -> Option<&'a str> {
    let (_, rest) = element.split_once(&format!(" {attribute}=\""))?;
    Some(rest.split_once('"').unwrap().0)
}

/// The words of a text element.
fn words(element: &str) -> String {
    let (_, rest) = element.split_once('>').unwrap();
    let (text, _) = rest.split_once('<').unwrap();
    let text = text
        .replace("&lt;", "<")
        .replace("&gt;", ">")
        .replace("&quot;", "\"");
    text.replace("&#x27;", "'").replace("&amp;", "&")
}

/// The left, top, right and bottom of what an element covers: a rectangle, a circle, or words.
fn extent(element: &str) -> Option<[f64; 4]> {
    let number = |attribute| value(element, attribute);
    if element.starts_with("<rect") {
        let (x, y) = (number("x"), number("y"));
        return Some([x, y, x + number("width"), y + number("height")]);
    }
    if element.starts_with("<circle") {
        let (x, y, r) = (number("cx"), number("cy"), number("r"));
        return Some([x - r, y - r, x + r, y + r]);
    }
    if !element.starts_with("<text") {
        return None;
    }
    let (x, y, size) = (number("x"), number("y"), number("font-size"));
    let bolder = if element.contains(svg::BOLD) {
        svg::BOLDER
    } else {
        1.0
    };
    let wide = match text_value(element, "textLength") {
        Some(length) => length.parse().unwrap(),
        None => svg::width(&words(element), size * bolder),
    };
    let left = if element.contains("\"middle\"") {
        x - wide / 2.0
    } else {
        x
    };
    Some([left, y - size, left + wide, y + size * 0.3])
}

/// The measures of a picture of one page, which holds all its elements.
fn check_page(picture: &str) -> (f64, f64) {
    let head = picture.lines().next().unwrap();
    let (wide, tall) = (value(head, "width"), value(head, "height"));
    assert!(wide <= 1200.0 && tall <= 700.0, "{wide} by {tall}");
    for element in picture.lines().skip(2) {
        if let Some([left, top, right, bottom]) = extent(element) {
            let within = left >= 0.0 && top >= 0.0 && right <= wide && bottom <= tall;
            assert!(within, "{wide} by {tall}: {element}");
        }
    }
    (wide, tall)
}
