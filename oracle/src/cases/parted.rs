//! Cases for the last line of WORDS: the place where the lists part, and the room that the line takes.

use super::{Case, Due, LIMITS, call, case, sum_of, words};
use crate::{Call, Entry};

pub fn cases() -> Vec<Case> {
    let mut all = parted();
    all.extend(beginnings());
    all.extend(counted());
    all.extend(in_room());
    all
}

#[rustfmt::skip]
fn parted() -> Vec<Case> {
    const AT_THE_LAST: Due = Ok("same=no\nleft=v0;v1 v2\nright=v0;v1 v3\ndiffer=1\n");
    vec![
        words("at the first word", ["+ v2 v1", "+ v0 v2"], Ok("same=no\nleft=v0;v2\nright=v1;v2\ndiffer=0\n")),
        words("at the last word", ["+ v0 * v1 v2", "+ v0 * v1 v3"], AT_THE_LAST),
        words("at the last word, exchanged", ["+ v0 * v1 v3", "+ v0 * v1 v2"], AT_THE_LAST),
        words("in the middle", ["+ v4 + v1 + v3 v0", "+ v0 + v1 + v2 v4"], Ok("same=no\nleft=v0;v1;v2;v4\nright=v0;v1;v3;v4\ndiffer=2\n")),
        words("lists of two lengths", ["+ v0 v2", "+ v0 + v1 v2"], Ok("same=no\nleft=v0;v1;v2\nright=v0;v2\ndiffer=1\n")),
        words("a repeat more", ["+ v0 + v1 v1", "+ v0 + v0 v1"], Ok("same=no\nleft=v0;v0;v1\nright=v0;v1;v1\ndiffer=1\n")),
        words("a word that begins the other", ["+ v0 * v1 v0", "+ v0 v1"], Ok("same=no\nleft=v0;v1\nright=v0;v1 v0\ndiffer=1\n")),
        words("nowhere", ["+ v1 v0", "+ v0 v1"], Ok("same=yes\nleft=v0;v1\nright=v0;v1\n")),
        words("nowhere, without words", ["0", "* 0 v3"], Ok("same=yes\nleft=0\nright=0\n")),
    ]
}

/// A list that is a beginning of the other, of either side.
#[rustfmt::skip]
fn beginnings() -> Vec<Case> {
    const TWO_OF_THREE: Due = Ok("same=no\nleft=v0;v1\nright=v0;v1;v1\ndiffer=2\n");
    const NONE_OF_ONE: Due = Ok("same=no\nleft=0\nright=v0\ndiffer=0\n");
    vec![
        words("left ends first", ["+ v0 v1", "+ v0 + v1 v1"], TWO_OF_THREE),
        words("right ends first", ["+ v0 + v1 v1", "+ v0 v1"], TWO_OF_THREE),
        words("no words on the left", ["0", "v0"], NONE_OF_ONE),
        words("no words on the right", ["v0", "* v1 0"], NONE_OF_ONE),
        words("no words and the empty word", ["1", "0"], Ok("same=no\nleft=0\nright=1\ndiffer=0\n")),
        words("the empty word and more", ["+ v0 1", "1"], Ok("same=no\nleft=1\nright=1;v0\ndiffer=1\n")),
    ]
}

/// Up to 288 common words, about the numbers where a digit comes in.
fn counted() -> Vec<Case> {
    let of_99 = format!("* {} + 1 {}", sum_of("1", 3), product(&[4, 4, 2]));
    let most = product(&[4, 3, 3, 3, 3]);
    let alike = [
        ("nine words", [sum_of("1", 9), sum_of("1", 16)], [9, 16]),
        ("ten words", [sum_of("1", 11), sum_of("1", 10)], [10, 11]),
        ("99 words", [of_99, product(&[5, 5, 4])], [99, 100]),
        (
            "100 words",
            [product(&[4, 3, 3, 3]), product(&[5, 5, 4])],
            [100, 108],
        ),
        ("288 words", [product(&[4, 4, 3, 3, 2]), most], [288, 324]),
    ];
    let alike = alike.map(|(name, sides, counts)| {
        let lists = counts.map(|count| vec!["1"; count]);
        no(name, &sides, lists, counts[0])
    });
    let mut all = Vec::from(alike);
    all.push(changed_at_the_end());
    all
}

/// Two lists of 324 words that have 243 in common.
fn changed_at_the_end() -> Case {
    let rest = product(&[3, 3, 3, 3]);
    let sides = ["v4", "v3"].map(|last| format!("* + v0 + v1 + v2 {last} {rest}"));
    let lists = ["v3", "v4"].map(|last| ["v0", "v1", "v2", last].map(|word| [word; 81]));
    let lists = lists.map(|list| list.concat());
    no("243 of 324 words", &sides, lists, 243)
}

/// The last line counts for refusal 8.
fn in_room() -> Vec<Case> {
    let in_room = |sides, room| Call {
        room,
        ..call(Entry::Words, sides, LIMITS)
    };
    const NO: &str = "same=no\nleft=v0\nright=v1\ndiffer=0\n";
    const YES: &str = "same=yes\nleft=v0\nright=v0\n";
    const TEN: &str = "same=no\nleft=v0;v0;v0;v0;v0;v0;v0;v0;v0;v0\n\
        right=v0;v0;v0;v0;v0;v0;v0;v0;v0;v0;v0\ndiffer=10\n";
    let no = |room| in_room(["v0", "v1"], room);
    let yes = |room| in_room(["v0", "* v0 1"], room);
    let sides = [sum_of("v0", 10), sum_of("v0", 11)];
    let ten = |room| in_room(sides.each_ref().map(String::as_str), room);
    vec![
        case("room for the last line", no(NO.len()), Ok(NO)),
        case("8, a byte too few", no(NO.len() - 1), Err(8)),
        case("8, room for three lines", no(25), Err(8)),
        case("8, room for a half of the line", no(30), Err(8)),
        case("room for three lines of a yes", yes(YES.len()), Ok(YES)),
        case("8, a byte too few for a yes", yes(YES.len() - 1), Err(8)),
        case("room for two digits", ten(TEN.len()), Ok(TEN)),
        case("8, room for one digit", ten(TEN.len() - 1), Err(8)),
    ]
}

/// A case that is answered by no, with these lists and this place.
fn no(name: &'static str, sides: &[String; 2], lists: [Vec<&str>; 2], place: usize) -> Case {
    let call = call(Entry::Words, sides.each_ref().map(String::as_str), LIMITS);
    let [left, right] = lists.map(|list| list.join(";"));
    let due = Ok(format!(
        "same=no\nleft={left}\nright={right}\ndiffer={place}\n"
    ));
    Case { name, call, due }
}

/// The product of sums of 1, so many in each.
pub fn product(widths: &[usize]) -> String {
    let sums: Vec<String> = widths.iter().map(|&width| sum_of("1", width)).collect();
    "* ".repeat(sums.len() - 1) + &sums.join(" ")
}
