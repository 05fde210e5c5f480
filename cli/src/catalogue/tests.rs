//! The entries held to a plain model: a list of entries, kinds counted afresh from what RENAME prints, and the numbers as the header tells
//! of them.

use puvainy::{Buffers, CATALOGUE, Entry, Room};

use super::*;

/// Equations of which some are of one kind, by both keys or by words alone; some differ in a c letter alone.
const SIDES: [&str; 14] = [
    "left=* v0 v1\nright=* v1 v0\n",
    "left=* v9 v3\nright=* v3 v9\n",
    "left=+ * v0 v1 0\nright=* v1 v0\n",
    "left=v0\nright=+ v0 0\n",
    "left=* 1 v5\nright=v5\n",
    "left=0\nright=+ v0 1\n",
    "left=0\nright=1\n",
    "left=* + v0 1 + v1 v2\nright=* + v1 v2 + v0 1\n",
    "left=* v0 c0\nright=* c0 v0\n",
    "left=* c0 v9\nright=* v9 c0\n",
    "left=* v0 c1\nright=* c1 v0\n",
    "left=* c0 c1\nright=* c1 c0\n",
    "left=c99\nright=+ c99 0\n",
    "left=0\nright=+ c99 1\n",
];
const LIMITS: &str = "steps=3\nsize=9\ndepth=4\nnodes=10\n";

/// An entry of the model: its number, its key, and the two lists of its lines.
type Held = (u32, usize, [Vec<u32>; 2]);

/// The numbers of a term's items, or of the words in a list.
fn list(key: usize, line: &str) -> Vec<u32> {
    let letter = |item: &str| {
        let number: u32 = item[1..].parse().unwrap();
        if item.starts_with('c') {
            1000 + number
        } else {
            number
        }
    };
    let item = |item: &str| match item {
        "0" => 4096,
        "1" => 4097,
        "+" => 4098,
        "*" => 4099,
        _ => letter(item),
    };
    let word = |word: &str| match word {
        "1" => vec![0],
        _ => word.split(' ').map(|l| letter(l) + 1).chain([0]).collect(),
    };
    match (key, line) {
        (0, _) => line.split(' ').map(item).collect(),
        (_, "-" | "0") => Vec::new(),
        _ => line.split(';').flat_map(word).collect(),
    }
}

/// The two lists of an equation under a key: 0 is raw, 1 words.
fn lists(key: usize, sides: &str) -> [Vec<u32>; 2] {
    let mut buffers = Buffers::new(0, Room::Grows);
    let answer = buffers.ask(Entry::Rename, format!("{sides}{LIMITS}").as_bytes());
    let answer = str::from_utf8(answer.unwrap()).unwrap();
    let values: Vec<_> = answer
        .lines()
        .filter_map(|line| line.split_once('='))
        .collect();
    [0, 1].map(|side| list(key, values[2 * key + side].1))
}

/// How many kinds the entries are.
fn kinds(entries: &[Option<Held>]) -> usize {
    let mut kinds: Vec<_> = entries
        .iter()
        .flatten()
        .map(|(_, key, lists)| (key, lists))
        .collect();
    kinds.sort();
    kinds.dedup();
    kinds.len()
}

/// The numbers are those of the entries.
fn check_numbers(numbers: &[u32], entries: &[Option<Held>]) {
    for (entry, place) in entries.iter().zip(numbers.chunks_exact(PLACE)) {
        let Some((number, key, [left, right])) = entry else {
            assert_eq!(place[0], 0);
            continue;
        };
        let head = [*number, *key as u32, left.len() as u32, right.len() as u32];
        assert_eq!(place[..8], [&head[..], &[0; 4]].concat());
        assert_eq!(place[8..8 + left.len()], left[..]);
        assert_eq!(place[2708..2708 + right.len()], right[..]);
    }
    assert_eq!(numbers[CATALOGUE - 1] as usize, kinds(entries));
}

/// What the model returns for a call, which it makes: a put of these sides, or a withdrawal.
fn due(entries: &mut [Option<Held>], number: u32, put: Option<(usize, &str)>) -> usize {
    let is_it = |entry: &Option<Held>| entry.as_ref().is_some_and(|held| held.0 == number);
    let at = entries.iter().position(is_it);
    let free = entries.iter().position(Option::is_none);
    match (put, at, free) {
        (Some(_), Some(_), _) => return 13,
        (Some(_), None, None) => return 15,
        (Some((key, sides)), None, Some(free)) => {
            entries[free] = Some((number, key, lists(key, sides)))
        }
        (None, Some(at), _) => entries[at] = None,
        (None, None, _) => return 14,
    }
    ANSWER + kinds(entries)
}

#[test]
fn lists_of_calls_give_what_a_plain_model_gives() {
    let mut numbers = vec![0; CATALOGUE];
    let mut entries = vec![None; MOST_PLACES];
    let (mut draw, mut counts): (u64, _) = (1, [0; 4]);
    for _ in 0..3000 {
        draw = draw
            .wrapping_mul(6364136223846793005)
            .wrapping_add(1442695040888963407);
        let [number, key, sides, word] = [52, 40, 41, 44].map(|by| (draw >> by) as usize);
        let sides = SIDES[sides % SIDES.len()];
        let (number, key) = (1 + number as u32 % 90, key % 2);
        let put = (word % 4 < 3).then_some((key, sides));
        let returned = match put {
            Some(_) => {
                let key = ["raw", "words"][key];
                let text = format!("number={number}\nkey={key}\n{sides}{LIMITS}");
                Change::Put.call(text.as_bytes(), &mut numbers)
            }
            None => Change::Withdraw.call(format!("number={number}\n").as_bytes(), &mut numbers),
        };
        assert_eq!(returned, due(&mut entries, number, put));
        counts[returned.min(16) - 13] += 1;
        if draw >> 60 == 0 {
            check_numbers(&numbers, &entries);
        }
    }
    check_numbers(&numbers, &entries);
    assert!(counts.into_iter().all(|count| count > 100), "{counts:?}");
}

/// Those that differ in a c letter are two kinds by either key, those that differ in v letters one.
#[test]
fn entries_that_differ_in_a_c_letter_are_different_kinds() {
    for key in ["raw", "words"] {
        let mut numbers = vec![0; CATALOGUE];
        let mut put = |number: usize, sides: &str| {
            let text = format!("number={number}\nkey={key}\n{sides}{LIMITS}");
            Change::Put.call(text.as_bytes(), &mut numbers)
        };
        assert_eq!(put(1, "left=* v0 c0\nright=v0\n"), 101);
        assert_eq!(put(2, "left=v7\nright=* v7 c0\n"), 101);
        assert_eq!(put(3, "left=* v0 c1\nright=v0\n"), 102);
        assert_eq!(put(4, "left=* v0 v1\nright=v0\n"), 103);
        let begin = match key {
            "raw" => [vec![0], vec![4099, 0, 1000]],
            _ => [vec![1, 0], vec![1, 1001, 0]],
        };
        for (list, from) in begin.iter().zip([8, 2708]) {
            assert_eq!(numbers[from..from + list.len()], list[..]);
        }
    }
}

#[test]
fn a_catalogue_of_another_length_is_refused_by_99_and_left_alone() {
    for count in [0, 1, CATALOGUE - 1, CATALOGUE + 1] {
        let mut numbers = vec![7; count];
        for change in Change::ALL {
            for text in ["", "number=1\n"] {
                assert_eq!(change.call(text.as_bytes(), &mut numbers), 99);
            }
        }
        assert!(numbers == vec![7; count]);
    }
}
