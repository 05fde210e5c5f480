//! At which word the lists of two plans part, and what the guide says of it.

use puvainy::{Buffers, Entry, Room};

use crate::common::{drawn, guide_from, job_of, plans, puvainy, puvainy_on, sides, stored, value};

const KEYS: [&str; 2] = ["left", "right"];

/// The guide's section about the line `differ`.
fn section() -> String {
    guide_from("Which word parts two plans", "RENAME")
}

/// The words of a list, each as the numbers of its letters, by which words are ordered; `1` has none, and `0` is no words.
fn words(list: &str) -> Vec<Vec<usize>> {
    let number = |letter: &str| {
        let (kind, number) = letter.split_at(1);
        let number: usize = number.parse().unwrap();
        number + if kind == "c" { 1000 } else { 0 }
    };
    let word = |word: &str| match word {
        "1" => vec![],
        letters => letters.split(' ').map(number).collect(),
    };
    match list {
        "0" => vec![],
        words => words.split(';').map(word).collect(),
    }
}

/// Both lists of an answer.
fn lists(answer: &str) -> [Vec<Vec<usize>>; 2] {
    sides(answer, KEYS).map(words)
}

/// What WORDS prints behind the lists: nothing where they are the same.
fn last_line(answer: &str) -> String {
    let [left, right] = lists(answer);
    let alike = left
        .iter()
        .zip(&right)
        .take_while(|(one, other)| one == other);
    match (left == right, alike.count()) {
        (true, _) => String::new(),
        (false, place) => format!("differ={place}\n"),
    }
}

/// How an answer is told whole by its two lists.
fn whole(answer: &str) -> String {
    let [left, right] = sides(answer, KEYS);
    let last = last_line(answer);
    let same = if last.is_empty() { "yes" } else { "no" };
    format!("same={same}\nleft={left}\nright={right}\n{last}")
}

/// What WORDS answers of every two plans of the guide's jobs that it does not refuse together.
fn answers() -> Vec<String> {
    let (plans, mut buffers) = (plans(), Buffers::new(0, Room::Grows));
    let mut answers = Vec::new();
    for (index, left) in plans.iter().enumerate() {
        for right in &plans[..index] {
            let asked = buffers.ask(Entry::Words, job_of([left, right]).as_bytes());
            answers.extend(asked.map(|answer| str::from_utf8(answer).unwrap().to_owned()));
        }
    }
    answers
}

/// Of every two plans of the guide's jobs.
#[test]
fn the_last_line_counts_the_words_before_the_first_that_differs() {
    let mut counts = [0; 3];
    for answer in answers() {
        assert_eq!(answer, whole(&answer));
        let place = value(&answer, "differ").map(|place| place.parse::<usize>().unwrap());
        counts[place.map_or(0, |place| 1 + place.min(1))] += 1;
    }
    assert!(counts.iter().all(|&count| count > 20), "{counts:?}");
}

/// What the guide says of the words at K: which list has one of them more often, and what the word before it tells.
#[test]
fn one_list_has_the_word_more_often_and_the_word_before_tells_whether_the_other_has_it() {
    let mut counts = [[0; 2]; 2];
    for answer in answers() {
        let [left, right] = lists(&answer);
        let Some(place) = value(&answer, "differ") else {
            continue;
        };
        let place: usize = place.parse().unwrap();
        let (more, less) = match left.get(place) {
            Some(word) => {
                assert!(word < &right[place], "{answer}");
                (&left, &right)
            }
            None => {
                assert_eq!(left[..], right[..place]);
                (&right, &left)
            }
        };
        let word = &more[place];
        let count = |list: &[Vec<usize>]| list.iter().filter(|other| *other == word).count();
        assert!(count(more) > count(less), "{answer}");
        let is_before = place > 0 && &more[place - 1] == word;
        assert_eq!(is_before, count(less) > 0, "{answer}");
        counts[usize::from(place == left.len())][usize::from(is_before)] += 1;
    }
    assert!(
        counts.iter().flatten().all(|&count| count > 0),
        "{counts:?}"
    );
}

#[test]
fn the_guides_table_shows_what_parts_the_plans() {
    let section = section();
    let (_, table) = section
        .split_once("| Job | `left` | `right` | `differ` |")
        .unwrap();
    let (table, _) = table.split_once("\n\n").unwrap();
    let mut rows = 0;
    for row in table.lines().skip(2) {
        let cells: Vec<_> = row
            .split('|')
            .map(|cell| cell.trim().replace('`', ""))
            .collect();
        let [_, job, left, right, place, ..] = &cells[..] else {
            panic!("{row}");
        };
        let due = format!("same=no\nleft={left}\nright={right}\ndiffer={place}\n");
        assert_eq!(stored(&format!("{job}.words")), due);
        let gave = puvainy(&["words", &format!("{job}.job")]);
        assert_eq!((gave.status, gave.printed), (Some(0), due));
        rows += 1;
    }
    assert_eq!(rows, 5);
}

/// A draft is mended word by word until the plans have the same words, and FIND proves them then.
#[test]
fn the_guides_finding_leads_to_a_draft_that_is_proved() {
    let section = section();
    let answer = |name: &str| puvainy(&["words", &format!("{name}.job")]).printed;
    for name in ["year", "year-mended", "year-plan"] {
        let words = answer(name);
        assert_eq!(words, stored(&format!("{name}.words")));
        assert!(section.contains(&format!("```\n{words}```")), "{words}");
    }
    let job = stored("year.job");
    assert!(section.contains(&format!("```\n{job}```")));
    let mended = job.replacen("* v3 v2", "* v3 + v1 v2", 1);
    assert_eq!(mended, stored("year-mended.job"));
    let right = mended.replacen("+ v4 v4", "v4", 1);
    assert_eq!(right, stored("year-right.job"));
    let places =
        ["year", "year-mended"].map(|name| value(&answer(name), "differ").unwrap().to_owned());
    assert_eq!(places, ["2", "5"]);
    let last = answer("year-right");
    assert!(
        last.starts_with("same=yes\n") && last.lines().count() == 3,
        "{last}"
    );
    let find = |name: &str| puvainy(&["find", &format!("{name}.job")]).printed;
    assert!(find("year").starts_with("answer=none\n"));
    let proved = find("year-right");
    assert!(proved.starts_with("answer=proved\n"));
    assert_eq!(value(&proved, "steps"), Some("1"));
}

/// The empty table's list ends at once and stands first, so the other is the plan's, as it is beside any draft.
#[test]
fn a_plan_beside_0_has_its_own_list() {
    let [nothing, own] = sides(&stored("year-plan.words"), KEYS).map(str::to_owned);
    assert_eq!(nothing, "0");
    assert_eq!(value(&stored("year-plan.words"), "differ"), Some("0"));
    let plan = value(&stored("year.job"), "right").unwrap().to_owned();
    assert_eq!(sides(&stored("year-plan.job"), KEYS), [plan.as_str(), "0"]);
    assert_eq!(sides(&stored("year.words"), KEYS)[0], own);
    let mut count = 0;
    for plan in plans() {
        let gave = puvainy_on(&["words"], job_of([&plan, "0"]).as_bytes()).printed;
        if value(&gave, "same") == Some("no") {
            let due = [Some("0"); 2];
            assert_eq!(
                ["left", "differ"].map(|key| value(&gave, key)),
                due,
                "{plan}"
            );
            count += 1;
        }
    }
    assert!(count > 50, "{count}");
}

/// With names the words at K are said; the answer is what it is without.
#[test]
fn the_words_that_part_the_plans_are_said_with_names() {
    let asked = |name: &str| {
        let job = format!("{name}.job");
        let gave = puvainy(&["words", "--names", "names.txt", &job]);
        assert_eq!(
            (gave.status, gave.printed),
            (Some(0), stored(&format!("{name}.words")))
        );
        assert_eq!(puvainy(&["words", &job]).said, "");
        gave.said
    };
    let said = asked("half-priced");
    assert!(section().contains(&format!("```\n{said}```")), "{said}");
    let [left, right] = lists(&stored("half-priced.words"));
    assert_eq!((left.len(), right.len(), &left[10]), (12, 11, &right[9]));
    let due = "puvainy: year-mended.job: no: the lists part at word 5, counted from 0, where left ends\n\
               puvainy: word 5 of right: Archive\n";
    assert_eq!(asked("year-mended"), due);
    assert_eq!(asked("year-right"), "");
}

#[test]
fn rename_has_no_such_line_and_its_lists_have_an_order_of_their_own() {
    let gave = puvainy(&["rename", "year.job"]).printed;
    assert_eq!(gave, stored("year.rename"));
    let keys: Vec<_> = gave
        .lines()
        .map(|line| line.split('=').next().unwrap())
        .collect();
    assert_eq!(keys, ["left", "right", "wleft", "wright"]);
    let wleft = value(&gave, "wleft").unwrap();
    assert!(section().contains(&format!("`wleft` of `year.job` is `{wleft}`")));
    // Of the two lists the one with a word twice is `right` of WORDS.
    let has_double = |list: &str| words(list).windows(2).any(|next| next[0] == next[1]);
    let due = stored("year.words");
    let left = value(&due, "left").unwrap();
    assert_eq!([wleft, left].map(has_double), [true, false]);
}

/// The picture shows the lists as they are stored: one colour up to K, another for the word that one list has more often.
#[test]
fn the_picture_sets_word_beside_word() {
    let picture = stored("differ.svg");
    let mut colours = Vec::new();
    for (job, more) in [("year", "left"), ("year-mended", "right")] {
        let answer = stored(&format!("{job}.words"));
        let place: usize = value(&answer, "differ").unwrap().parse().unwrap();
        assert!(picture.contains(&format!(">{job}: differ={place}<")));
        for key in KEYS {
            let (_, shown) = drawn(&picture, &format!("{job}-{key}"));
            let list = value(&answer, key).unwrap().split(';');
            let ends = (list.clone().count() == place).then_some("ends");
            let texts: Vec<_> = shown.iter().map(|(text, _)| text.as_str()).collect();
            assert_eq!(texts, list.chain(ends).collect::<Vec<_>>(), "{job}, {key}");
            let colour = |at: usize| shown[at].1.clone();
            colours.extend((0..place).map(|at| ("before", colour(at))));
            colours.extend((key == more).then(|| ("more", colour(place))));
        }
    }
    colours.sort();
    colours.dedup();
    assert_eq!(colours.len(), 2, "{colours:?}");
    assert_ne!(colours[0].1, colours[1].1);
}
