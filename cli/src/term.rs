//! Terms as trees, read from the form in which jobs and answers hold them.

/// The most nodes of a side, and so of any term in a job or an answer.
pub const MOST_NODES: usize = 31;

/// The most different v letters of two sides, or of all terms of a derivation.
pub const MOST_V_LETTERS: usize = 6;

/// A term: a letter, `0` or `1`, or a sign over two parts.
#[derive(Clone, Debug, Eq, PartialEq)]
pub enum Term<'a> {
    Atom(&'a str),
    Over(&'a str, Box<[Term<'a>; 2]>),
}

impl<'a> Term<'a> {
    /// The term that the text is, if it is one of at most `MOST_NODES` nodes.
    pub fn read(text: &'a str) -> Option<Term<'a>> {
        if text.split(' ').count() > MOST_NODES {
            return None;
        }
        let mut items = text.split(' ');
        let term = Term::next(&mut items)?;
        items.next().is_none().then_some(term)
    }

    fn next(items: &mut impl Iterator<Item = &'a str>) -> Option<Term<'a>> {
        match items.next()? {
            sign @ ("+" | "*") => {
                let parts = [Term::next(items)?, Term::next(items)?];
                Some(Term::Over(sign, Box::new(parts)))
            }
            item => is_atom(item).then_some(Term::Atom(item)),
        }
    }

    /// The term as it is written.
    pub fn text(&self) -> String {
        match self {
            Term::Atom(item) => item.to_string(),
            Term::Over(sign, parts) => format!("{sign} {} {}", parts[0].text(), parts[1].text()),
        }
    }

    /// How many nodes it has.
    pub fn size(&self) -> usize {
        match self {
            Term::Atom(_) => 1,
            Term::Over(_, parts) => 1 + parts[0].size() + parts[1].size(),
        }
    }

    /// How many signs stand above its deepest item.
    pub fn depth(&self) -> usize {
        match self {
            Term::Atom(_) => 0,
            Term::Over(_, parts) => 1 + parts[0].depth().max(parts[1].depth()),
        }
    }

    /// The term with another part where the turns lead to, if they do not lead out of it.
    pub fn with(&self, turns: &str, part: Term<'a>) -> Option<Term<'a>> {
        let Some(turn) = turns.get(..1) else {
            return Some(part);
        };
        let Term::Over(sign, parts) = self else {
            return None;
        };
        let mut parts = parts.clone();
        let side = usize::from(turn == "r");
        parts[side] = parts[side].with(&turns[1..], part)?;
        Some(Term::Over(sign, parts))
    }

    /// The part to which the turns lead from the top, if they do not lead out of the term.
    pub fn part(&self, turns: &str) -> Option<&Term<'a>> {
        turns.bytes().try_fold(self, |part, turn| match part {
            Term::Over(_, parts) => Some(&parts[usize::from(turn == b'r')]),
            Term::Atom(_) => None,
        })
    }
}

/// The turns of a place as lines of a derivation write it, `l` or `r` each, of which the top, a dot, has none.
pub fn turns(place: &str) -> Option<&str> {
    let only_turns = !place.is_empty() && place.bytes().all(|turn| turn == b'l' || turn == b'r');
    if place == "." {
        Some("")
    } else {
        only_turns.then_some(place)
    }
}

/// Whether the item is `0`, `1` or a letter.
pub fn is_atom(item: &str) -> bool {
    item == "0" || item == "1" || is_letter(item)
}

/// Whether the item is a v letter or a c letter, which is `c` and a number 0 to 99.
pub fn is_letter(item: &str) -> bool {
    is_v_letter(item) || is_numbered(item, 'c', 2)
}

/// Whether the item is `v` and a number 0 to 999. Only such letters are counted by refusal 4 and renamed.
pub fn is_v_letter(item: &str) -> bool {
    is_numbered(item, 'v', 3)
}

/// Whether the item is the sign and a number of so many digits at most, without a needless 0 in front.
fn is_numbered(item: &str, sign: char, most: usize) -> bool {
    let Some(digits) = item.strip_prefix(sign) else {
        return false;
    };
    let plain = digits.bytes().all(|byte| byte.is_ascii_digit());
    let count = digits.len();
    plain && (1..=most).contains(&count) && (digits == "0" || !digits.starts_with('0'))
}

/// The ranks of a term's items, by which terms are ordered: v letters by number, c letters likewise, then 0, 1, sums and products.
pub fn ranks(term: &str) -> Vec<usize> {
    let number = |digits: &str| digits.parse().unwrap_or(0);
    let rank = |item: &str| match item {
        "0" => 1100,
        "1" => 1101,
        "+" => 1102,
        "*" => 1103,
        letter => match letter.strip_prefix('c') {
            Some(digits) => 1000 + number(digits),
            None => number(letter.trim_start_matches('v')),
        },
    };
    term.split(' ').map(rank).collect()
}

#[cfg(test)]
mod tests {
    use super::*;

    #[test]
    fn terms_are_ordered_by_the_ranks_of_their_items() {
        let rising = [
            "v0",
            "v2",
            "v10",
            "v999",
            "c0",
            "c9",
            "c10",
            "c99",
            "0",
            "1",
            "+ v0 v1",
            "+ v0 c0",
            "+ v0 * v0 v0",
            "+ v999 c0",
            "+ c0 v0",
            "+ 0 v0",
            "+ + v0 v0 v0",
            "* v0 v1",
            "* v1 v0",
        ];
        assert!(rising.is_sorted_by(|one, next| ranks(one) < ranks(next)));
    }

    #[test]
    fn a_term_is_read_whole_or_not_at_all() {
        let join = Term::Over("*", Box::new([Term::Atom("v0"), Term::Atom("c99")]));
        let stack = Term::Over("+", Box::new([join, Term::Atom("v999")]));
        assert_eq!(Term::read("+ * v0 c99 v999"), Some(stack));
        for text in [
            "", "+ v0", "v0 + 0", "v0 ", "+  v0 v1", "v1000", "v01", "v", "2", "\u{e9}", "c100",
            "c00", "c01", "c", "C0", "cv0", "vc0", "c0 c1", "+ c0",
        ] {
            assert_eq!(Term::read(text), None, "{text}");
        }
    }

    #[test]
    fn v_letters_and_c_letters_are_told_apart() {
        for (item, letter, v_letter) in [
            ("v0", true, true),
            ("v999", true, true),
            ("c0", true, false),
            ("c99", true, false),
            ("c100", false, false),
            ("v1000", false, false),
            ("c-1", false, false),
            ("c+1", false, false),
            ("0", false, false),
            ("+", false, false),
        ] {
            assert_eq!((is_letter(item), is_v_letter(item)), (letter, v_letter));
        }
    }

    /// As the guide's table shows them.
    #[test]
    fn nodes_and_signs_above_an_item_are_counted() {
        let guide = include_str!("../../docs/guide.md");
        let rows = guide
            .lines()
            .skip_while(|line| !line.ends_with(" Nodes | Depth |"));
        let rows: Vec<_> = rows.skip(2).take_while(|line| !line.is_empty()).collect();
        assert!(rows.len() > 3);
        for row in rows {
            let cells: Vec<_> = row.trim_matches('|').split('|').map(str::trim).collect();
            let term = Term::read(cells[0].trim_matches('`')).unwrap();
            let counts = [term.size(), term.depth()].map(|count| count.to_string());
            assert_eq!(counts[..], cells[2..], "{row}");
        }
    }

    #[test]
    fn a_part_is_found_and_replaced_by_its_place() {
        let text = "+ * v0 1 v999";
        let term = Term::read(text).unwrap();
        assert_eq!(term.text(), text);
        for (place, part, with) in [
            (".", Some(text), Some("0")),
            ("l", Some("* v0 1"), Some("+ 0 v999")),
            ("lr", Some("1"), Some("+ * v0 0 v999")),
            ("r", Some("v999"), Some("+ * v0 1 0")),
            ("rl", None, None),
        ] {
            let turns = turns(place).unwrap();
            assert_eq!(term.part(turns).map(Term::text).as_deref(), part);
            let other = term.with(turns, Term::Atom("0"));
            assert_eq!(other.map(|term| term.text()).as_deref(), with);
        }
        for place in ["", "..", ".l", "L", "l r"] {
            assert_eq!(turns(place), None);
        }
    }

    #[test]
    fn a_term_of_31_nodes_is_read_and_one_of_33_is_not() {
        let chain = |signs: usize| "+ v0 ".repeat(signs) + "v0";
        assert!(Term::read(&chain(15)).is_some());
        assert_eq!(Term::read(&chain(16)), None);
    }
}
