//! The quick yes or no beside what WORDS prints.

use puvainy::{Buffers, Entry, Room};

use crate::common::{counts, job_of, plans, puvainy, shell, stored, value};

/// How many words each list of an answer of WORDS has, the lesser number first.
fn listed(answer: &str) -> [usize; 2] {
    let mut counts = ["left", "right"].map(|key| match value(answer, key).unwrap() {
        "0" => 0,
        list => list.split(';').count(),
    });
    counts.sort();
    counts
}

/// Of every two plans of the guide's jobs, in either order; other counts always say no.
#[test]
fn the_line_is_the_first_of_words_or_the_refusal_is_the_same() {
    let (plans, mut buffers) = (plans(), Buffers::new(0, Room::Grows));
    let mut kinds = [0; 4];
    let pairs = plans
        .iter()
        .flat_map(|left| plans.iter().map(move |right| [left, right]));
    for pair in pairs.map(|pair| pair.map(String::as_str)) {
        let mut ask = |entry| {
            let asked = buffers.ask(entry, job_of(pair).as_bytes());
            asked.map(|answer| str::from_utf8(answer).unwrap().to_owned())
        };
        let (same, words) = (ask(Entry::Same), ask(Entry::Words));
        let first = |answer: &String| answer[..answer.find('\n').unwrap() + 1].to_owned();
        assert_eq!(
            same,
            words.as_ref().map(first).map_err(|number| *number),
            "{pair:?}"
        );
        let Ok(words) = words else {
            kinds[0] += 1;
            continue;
        };
        let mut counts = counts(pair);
        counts.sort();
        assert_eq!(counts, listed(&words), "{pair:?}");
        let kind = match (same.as_deref(), counts[0] == counts[1]) {
            (Ok("same=no\n"), false) => 1,
            (Ok("same=no\n"), true) => 2,
            (Ok("same=yes\n"), true) => 3,
            _ => panic!("{pair:?}"),
        };
        kinds[kind] += 1;
    }
    assert!(kinds.iter().all(|&count| count > 20), "{kinds:?}");
}

/// Any call of `words` may be one of `same`. Nothing is said beside an answer; beside a refusal what `words` says.
#[test]
fn every_job_of_the_guide_is_told_as_by_words() {
    for options in ["", "--names names.txt", "--slots 0 --room 32768"] {
        let ask = |word: &str| shell(&format!("$P {word} {options} *.job"));
        let (same, words) = (ask("same"), ask("words"));
        let is_of_lists = |line: &&str| {
            ["left=", "right=", "differ="]
                .iter()
                .any(|key| line.starts_with(key))
        };
        let due = words.printed.lines().filter(|line| !is_of_lists(line));
        assert_eq!(
            same.printed.lines().collect::<Vec<_>>(),
            due.collect::<Vec<_>>()
        );
        let is_of_words =
            |line: &&str| line.contains(": no: ") || line.starts_with("puvainy: word ");
        let due = words.said.lines().filter(|line| !is_of_words(line));
        assert_eq!(
            same.said.lines().collect::<Vec<_>>(),
            due.collect::<Vec<_>>()
        );
        assert_eq!((same.status, words.status), (Some(1), Some(1)));
    }
}

#[test]
fn eight_bytes_hold_a_no_and_nine_a_yes() {
    for (name, bytes) in [
        ("stock-forgotten", 8),
        ("stock-twice", 8),
        ("stock-right", 9),
    ] {
        let job = format!("{name}.job");
        let ask = |word, bytes: usize| puvainy(&[word, "--room", &bytes.to_string(), &job]);
        let gave = ask("same", bytes);
        assert_eq!(
            (gave.status, gave.printed),
            (Some(0), stored(&format!("{name}.same")))
        );
        for less in [ask("same", bytes - 1), ask("words", bytes)] {
            assert_eq!(
                (less.status, less.printed.as_str()),
                (Some(1), "answer=refused\nnumber=8\n")
            );
        }
        let said = ask("same", bytes - 1).said;
        let due = format!(
            "puvainy: {job}: with --room {}: the answer is longer than the output room; ",
            bytes - 1
        );
        assert!(said.starts_with(&due), "{said}");
    }
    assert!(stored("../guide.md").contains("Nine bytes of room hold either line, eight a no."));
}
