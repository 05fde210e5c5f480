//! RENAME's lines of every two jobs of the guide.

use crate::common::{both_ways, puvainy_on, shell, sides, stored, value};

/// What the entry answers to each job of the guide that it does not refuse, beside the job's file.
fn answers(word: &str) -> Vec<(String, String)> {
    let gave = shell(&format!("$P {word} *.job"));
    let blocks = gave.printed.split("# ").skip(1);
    let answers = blocks.map(|block| block.split_once('\n').unwrap());
    answers
        .filter(|(_, answer)| !answer.starts_with("answer=refused\n"))
        .map(|(file, answer)| (file.to_owned(), answer.to_owned()))
        .collect()
}

/// Whether a one-to-one change of v letters turns the one equation into the other, sides exchanged or not.
fn turns(one: [&str; 2], other: [&str; 2]) -> bool {
    let one = one.join(" = ");
    both_ways(other).iter().any(|other| {
        let other = other.join(" = ");
        let pairs: Vec<_> = one.split(' ').zip(other.split(' ')).collect();
        let may_change = |item: &str| item.starts_with('v');
        one.split(' ').count() == other.split(' ').count()
            && pairs.iter().all(|(from, to)| {
                let kept = from == to || may_change(from) && may_change(to);
                kept && pairs.iter().all(|(f, t)| (from == f) == (to == t))
            })
    })
}

/// The v letters of two lists of words, each once.
fn letters(lists: [&str; 2]) -> Vec<String> {
    let items = lists.iter().flat_map(|list| list.split([' ', ';']));
    let mut letters: Vec<_> = items.filter(|item| item.starts_with('v')).collect();
    letters.sort();
    letters.dedup();
    letters.into_iter().map(str::to_owned).collect()
}

/// Every order of the letters.
fn orders(letters: &[String]) -> Vec<Vec<String>> {
    if letters.is_empty() {
        return vec![vec![]];
    }
    let with = |index: usize| {
        let mut rest = letters.to_vec();
        let first = rest.remove(index);
        let orders = orders(&rest).into_iter();
        orders.map(move |order| [vec![first.clone()], order].concat())
    };
    (0..letters.len()).flat_map(with).collect()
}

/// The list's words with letters changed, in any fixed order.
fn changed(list: &str, from: &[String], to: &[String]) -> Vec<String> {
    let letter = |item: &str| match from.iter().position(|letter| letter == item) {
        Some(place) => to[place].clone(),
        None => item.to_owned(),
    };
    let word = |word: &str| word.split(' ').map(letter).collect::<Vec<_>>().join(" ");
    let mut words: Vec<_> = list.split(';').map(word).collect();
    words.sort();
    words
}

/// Whether a one-to-one change of v letters turns the lists of words into the others, exchanged or not.
fn words_turn(one: [&str; 2], other: [&str; 2]) -> bool {
    let (from, to) = (letters(one), letters(other));
    let due = both_ways(other).map(|lists| lists.map(|list| changed(list, &to, &to)));
    from.len() == to.len()
        && orders(&to).iter().any(|order| {
            let lists = one.map(|list| changed(list, &from, order));
            due.contains(&lists)
        })
}

/// Of every two jobs of the guide.
#[test]
fn lines_are_shared_exactly_where_a_change_of_v_letters_leads_from_one_to_the_other() {
    let (renamed, words) = (answers("rename"), answers("words"));
    let files = |answers: &[(String, String)]| {
        let files = answers.iter().map(|(file, _)| file.clone());
        files.collect::<Vec<_>>()
    };
    assert_eq!(files(&renamed), files(&words));
    assert!(renamed.len() > 30, "{}", renamed.len());
    let mut counts = [0; 3];
    for ((file, name), (_, lists)) in renamed.iter().zip(&words) {
        let job = stored(file);
        let agree = value(lists, "same") == Some("yes");
        let last = sides(name, ["wleft", "wright"]);
        assert_eq!([last[0] == "-", last[1] == "-"], [agree; 2], "{file}");
        for ((other_file, other_name), (_, other_lists)) in renamed.iter().zip(&words) {
            let other = stored(other_file);
            let keys = ["left", "right"];
            let same = sides(name, keys) == sides(other_name, keys);
            let due = turns(sides(&job, keys), sides(&other, keys));
            assert_eq!(same, due, "{file} and {other_file}");
            assert!(!same || name == other_name);
            let same_last = last == sides(other_name, ["wleft", "wright"]);
            let due = match value(other_lists, "same") == Some("yes") {
                true => agree,
                false => words_turn(sides(lists, keys), sides(other_lists, keys)),
            };
            assert_eq!(same_last, due, "{file} and {other_file}");
            let kinds = [same, same_last && !same && !agree, !same_last];
            counts = [0, 1, 2].map(|kind| counts[kind] + usize::from(kinds[kind]));
        }
    }
    assert!(counts[0] > renamed.len() && counts[1] > 0 && counts[2] > 0);
}

#[test]
fn a_name_with_limits_is_a_job_again() {
    let none = "steps=0\nsize=0\ndepth=0\nnodes=0\n";
    let most = "steps=16\nsize=31\ndepth=15\nnodes=4096\n";
    for (file, answer) in answers("rename") {
        let [left, right] = sides(&answer, ["left", "right"]);
        for limits in [none, most] {
            let again = format!("left={left}\nright={right}\n{limits}");
            let gave = puvainy_on(&["rename"], again.as_bytes());
            assert_eq!((gave.status, &gave.printed), (Some(0), &answer), "{file}");
        }
    }
}
