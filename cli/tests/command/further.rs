//! What more nodes, and more or less cost, change in an answer of WEIGH.

use puvainy::{Entry, MOST_SLOTS};

use crate::common::{
    ask, derivation, laws, number, puvainy_on, shell, steps, stored, value, weigh, with,
};

/// The guide's jobs of WEIGH that are answered.
fn jobs() -> Vec<String> {
    let names = shell("ls *.weighing").printed;
    let jobs = names.lines().map(stored);
    jobs.filter(|job| ask(Entry::Weigh, MOST_SLOTS, job).is_ok())
        .collect()
}

fn kind(answer: &str) -> &str {
    value(answer, "answer").unwrap()
}

fn is_settled(answer: &str) -> bool {
    kind(answer) == "proved" || answer.ends_with("\ncut=no\n")
}

/// What the last line of an answer's derivation weighs.
fn last_weight(job: &str, answer: &str) -> usize {
    let weights = value(job, "weights").unwrap().split(' ');
    let last = steps(answer).lines().last().unwrap().to_owned();
    let laws = laws();
    let mut weighed = laws.iter().zip(weights);
    let of_last = weighed.find(|(law, _)| last.starts_with(&format!("step={law} ")));
    of_last.unwrap().1.parse().unwrap()
}

/// With more nodes a derivation in hand stays or becomes one that is no heavier, and no lighter than was said. What is proved stays, and
/// so does a none with nothing left to open.
#[test]
fn more_nodes_take_nothing_away() {
    let mut counts = [0; 3];
    for job in jobs() {
        let mut before: Option<String> = None;
        for nodes in (0..=60).chain([80, 100, 144, 145, 146, 150, 168, 200, 300, 1000, 1300, 4096])
        {
            let answer = weigh(&with(&job, "nodes", nodes));
            let weights = |answer: &str| ["total", "atleast"].map(|key| number(answer, key));
            match before {
                Some(before) if is_settled(&before) => assert_eq!(answer, before),
                Some(before) if kind(&before) == "atmost" => {
                    let [most, least] = weights(&before);
                    assert_ne!(kind(&answer), "none");
                    assert!((least..=most).contains(&number(&answer, "total")));
                    counts[usize::from(kind(&answer) == "proved")] += 1;
                }
                _ => {}
            }
            if kind(&answer) == "atmost" {
                let [most, least] = weights(&answer);
                assert!(least <= most && most <= number(&job, "cost"));
                assert_eq!(number(&answer, "expanded"), nodes);
                assert!(most - least <= last_weight(&job, &answer));
                counts[2] += usize::from(least == most);
            }
            before = Some(answer);
        }
    }
    assert!(counts.iter().all(|&count| count > 2), "{counts:?}");
}

/// An atmost has the lines of a proved answer, one more behind `total`, and no `cut`; those of its derivation are good.
#[test]
fn one_in_hand_is_told_as_a_proved_one() {
    let keys = |answer: &str| {
        let keys = answer
            .lines()
            .map(|line| line.split_once('=').unwrap().0.to_owned());
        let mut keys: Vec<_> = keys.collect();
        keys.dedup();
        keys
    };
    let mut proved = keys(&stored("quiet-week.weigh"));
    let place = proved.iter().position(|key| key == "total").unwrap();
    proved.insert(place + 1, "atleast".to_owned());
    let mut count = 0;
    for job in jobs() {
        for nodes in [1, 8, 11, 20, 30, 100, 150, 200] {
            let answer = weigh(&with(&job, "nodes", nodes));
            if kind(&answer) != "atmost" {
                continue;
            }
            assert_eq!(keys(&answer), proved);
            let checked = puvainy_on(&["check"], derivation(&answer).as_bytes());
            let due = (Some(0), "answer=good\n");
            assert_eq!((checked.status, checked.printed.as_str()), due);
            count += 1;
        }
    }
    assert!(count > 15, "{count}");
}

/// More cost changes nothing in an atmost; less than its total makes a none of it. So more cost may bring a heavier derivation in hand.
#[test]
fn what_is_in_hand_hangs_on_cost() {
    for name in [
        "quiet-week-20",
        "quiet-week-100",
        "quiet-week-150",
        "by-stock-narrow",
    ] {
        let held = stored(&format!("{name}.weigh"));
        let job = stored(&format!("{name}.weighing"));
        let [most, least] = ["total", "atleast"].map(|key| number(&held, key));
        let ran_out = format!("\nexpanded={}\ncut=yes\n", number(&job, "nodes"));
        for cost in 0..=99 {
            let answer = weigh(&with(&job, "cost", cost));
            match cost {
                _ if cost >= most => assert_eq!(answer, held),
                _ if cost >= least => assert!(answer.ends_with(&ran_out)),
                _ => assert_eq!(kind(&answer), "none"),
            }
        }
    }
    let told = "`quiet-week-20.weighing` answers the same with `cost=99`. With `cost=10` its derivation is too heavy, and the answer is a none, `cut=yes`.";
    assert!(stored("../guide.md").contains(told));
}
