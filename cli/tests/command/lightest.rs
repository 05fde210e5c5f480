//! What is lightest, beside what is shortest.

use puvainy::{Entry, MOST_SLOTS};

use crate::common::{ask, even, number, shell, steps, stored, value, weigh, with};

/// With a weight of 1 for each law the lightest derivation is as long as FIND's. Only where one law says the whole equation FIND may
/// have one and WEIGH none.
#[test]
fn of_even_weights_the_total_is_the_number_of_finds_lines() {
    let rights = shell("grep -c '^right=' *.job").printed;
    let alone = rights.lines().filter_map(|line| line.strip_suffix(":1"));
    let mut counts = [0; 4];
    for name in alone {
        let job = with(&stored(name), "nodes", 4096);
        let find = ask(Entry::Find, MOST_SLOTS, &job);
        let weigh = ask(Entry::Weigh, MOST_SLOTS, &even(&job));
        let (Ok(find), Ok(weigh)) = (find, weigh) else {
            continue;
        };
        let kinds = [&find, &weigh].map(|answer| value(answer, "answer").unwrap());
        let kind = match kinds {
            _ if weigh.ends_with("\ncut=yes\n") => 0,
            ["proved", "proved"] => {
                let told = ["total", "steps"].map(|key| number(&weigh, key));
                assert_eq!(told, [number(&find, "steps"); 2]);
                1
            }
            ["none", "none"] => {
                assert!(find.ends_with("\ncut=no\n"), "{name}");
                2
            }
            _ => {
                assert_eq!(
                    (kinds[0], number(&find, "expanded")),
                    ("proved", 0),
                    "{name}"
                );
                3
            }
        };
        counts[kind] += 1;
    }
    assert!(
        counts[1] > 10 && counts[2] > 5 && counts[3] > 1,
        "{counts:?}"
    );
}

/// Jobs of the guide that are proved, with all nodes, and their answers.
fn proved() -> [(String, String); 4] {
    [
        "no-returns",
        "no-returns-even",
        "by-stock",
        "by-stock-orders",
    ]
    .map(|name| {
        let job = stored(&format!("{name}.weighing"));
        (with(&job, "nodes", 4096), stored(&format!("{name}.weigh")))
    })
}

/// Less cost than what the derivation weighs is a none; more changes nothing.
#[test]
fn more_cost_changes_no_derivation() {
    for (job, due) in proved() {
        let total = number(&due, "total");
        for cost in (0..20).chain([28, 50, 99]) {
            let gave = weigh(&with(&job, "cost", cost));
            match cost < total {
                true => assert!(gave.ends_with("\ncut=no\n"), "{job}{cost}"),
                false => assert_eq!(gave, due, "{job}{cost}"),
            }
        }
    }
}

/// Whether more cost brings a derivation in hand, heavier than the cost was, where nodes ran out; else it changes nothing.
fn more_cost_brings_one(job: &str, none: &str) -> bool {
    let more = weigh(&with(job, "cost", 99));
    let is_in_hand = value(&more, "answer") == Some("atmost");
    match is_in_hand {
        true => assert!(number(&more, "total") > number(job, "cost"), "{job}"),
        false => assert_eq!(more, none, "{job}"),
    }
    is_in_hand
}

/// Fewer nodes than the derivation takes are none or leave one in hand, which is a lightest or heavier; more change nothing.
#[test]
fn more_nodes_change_no_derivation() {
    let mut brought = 0;
    for (job, due) in proved() {
        let [total, opened] = ["total", "expanded"].map(|key| number(&due, key));
        for job in [with(&job, "cost", total), job] {
            for nodes in (0..20).chain([opened - 1, opened, opened + 1]) {
                let job = with(&job, "nodes", nodes);
                let gave = weigh(&job);
                match value(&gave, "answer") {
                    _ if nodes >= opened => assert_eq!(gave, due),
                    Some("atmost") => assert!(
                        (number(&gave, "atleast")..=number(&gave, "total")).contains(&total)
                    ),
                    _ => {
                        assert!(gave.ends_with(&format!("\nexpanded={nodes}\ncut=yes\n")));
                        brought += usize::from(more_cost_brings_one(&job, &gave));
                    }
                }
            }
        }
    }
    assert!(brought > 5, "{brought}");
}

#[test]
fn only_what_weights_are_beside_each_other_counts() {
    let twice = |text: &str| {
        let numbers = text
            .split(' ')
            .map(|weight| weight.parse::<usize>().unwrap());
        let twice: Vec<_> = numbers.map(|weight| (2 * weight).to_string()).collect();
        twice.join(" ")
    };
    let job = with(
        &stored("by-stock.weighing"),
        "weights",
        "1 1 3 1 3 3 1 4 2 2",
    );
    let double = with(&job, "weights", twice(value(&job, "weights").unwrap()));
    let double = with(&double, "cost", 2 * number(&job, "cost"));
    let [once, twice] = [job, double].map(|job| weigh(&job));
    assert_eq!(steps(&twice), steps(&once));
    assert_eq!(number(&twice, "total"), 2 * number(&once, "total"));
}

/// A path of 62 lines, proved and in hand, of the calls that go deepest.
#[test]
fn the_header_tells_of_a_long_path() {
    let calls = stored("../../examples/deep.calls");
    let jobs: Vec<_> = calls.split("\n8 65535 262144 188\n").skip(1).collect();
    assert_eq!(jobs.len(), 2);
    for (job, kind, bytes) in [(jobs[0], "proved", 147_487), (jobs[1], "atmost", 147_498)] {
        let answer = weigh(&job[..188]);
        assert_eq!(value(&answer, "answer"), Some(kind));
        assert_eq!(["steps", "total"].map(|key| number(&answer, key)), [62; 2]);
        assert_eq!(answer.len(), bytes);
    }
    let header = stored("../../include/puvainy.h");
    assert!(header.contains("of 62 lines in hand, has 147,498 bytes."));
}

/// FIND tries a law on the whole equation, whatever the limits are; WEIGH does not.
#[test]
fn no_law_is_tried_on_the_whole_equation() {
    for name in ["nothing-joined", "stack-nothing-zero"] {
        let job = stored(&format!("{name}.job"));
        let find = stored(&format!("{name}.answer"));
        assert_eq!([number(&find, "steps"), number(&find, "expanded")], [1, 0]);
        assert!(weigh(&even(&job)).starts_with("answer=none\n"), "{name}");
    }
    let sides = |name| ["left", "right"].map(|key| value(&stored(name), key).unwrap().to_owned());
    assert_eq!(
        sides("nothing-joined.weighing"),
        sides("nothing-joined.job")
    );
}
