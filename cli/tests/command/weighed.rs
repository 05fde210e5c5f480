//! What the guide says of the cheapest derivation.

use crate::common::{
    derivation, drawn, guide_from, laws, number, puvainy, puvainy_on, shell, steps, stored, value,
};

/// The guide's section about WEIGH's derivations.
fn section() -> String {
    guide_from("The cheapest derivation", "Choosing cost and limits")
}

/// The law of each line of an answer.
fn laws_of(answer: &str) -> Vec<&str> {
    let lines = answer.lines().filter_map(|line| line.strip_prefix("step="));
    lines.map(|line| line.split(' ').next().unwrap()).collect()
}

/// What each line of an answer weighs by the weights of that job.
fn weights(job: &str, answer: &str) -> Vec<usize> {
    let given: Vec<usize> = value(job, "weights")
        .unwrap()
        .split(' ')
        .map(|weight| weight.parse().unwrap())
        .collect();
    let laws = laws();
    let place = |name: &str| laws.iter().position(|law| law == name).unwrap();
    laws_of(answer)
        .into_iter()
        .map(|law| given[place(law)])
        .collect()
}

#[test]
fn the_guide_shows_the_job_its_answer_and_derivations() {
    let section = section();
    let whole = stored("no-returns.weigh");
    let (answer, _) = whole.split_once("proof=").unwrap();
    let (_, larger) = whole_of("by-stock.weigh");
    for text in [
        stored("no-returns.weighing"),
        answer.to_owned(),
        steps(&stored("no-returns.answer")),
        steps(&stored("by-stock.answer")),
        larger,
    ] {
        assert!(section.contains(&format!("```\n{text}```")), "{text}");
    }
}

/// An answer up to the line `steps`, and from there to its last line of the derivation.
fn whole_of(name: &str) -> (String, String) {
    let answer = stored(name);
    let (answer, _) = answer.split_once("proof=").unwrap();
    let place = answer.find("steps=").unwrap();
    (answer[..place].to_owned(), answer[place..].to_owned())
}

/// The guide's table of weights, in law order, is what its jobs have.
#[test]
fn the_guides_table_gives_the_weights() {
    let section = section();
    let (_, table) = section
        .split_once("| Law | Weight | Why |\n|---|---|---|\n")
        .unwrap();
    let (table, rest) = table.split_once("\n\n").unwrap();
    let rows: Vec<Vec<&str>> = table
        .lines()
        .map(|row| row.split(" | ").collect())
        .collect();
    let weight = |law: &String| {
        let row = rows.iter().find(|row| row[0].contains(&format!("`{law}`")));
        row.unwrap()[1].to_owned()
    };
    let weights: Vec<_> = laws().iter().map(weight).collect();
    let weights = weights.join(" ");
    assert_eq!(
        value(&stored("no-returns.weighing"), "weights"),
        Some(&*weights)
    );
    assert_eq!(
        value(&stored("by-stock.weighing"), "weights"),
        Some(&*weights)
    );
    assert!(rest.contains(&format!(" that is `{weights}`.")));
}

/// `total` is the sum of what the lines weigh, within the cost; the three kinds of line are good.
#[test]
fn total_is_what_the_lines_weigh_and_they_are_good() {
    let jobs = shell("ls *.weighing").printed;
    let mut counts = [0; 2];
    for job in jobs.lines() {
        let gave = puvainy(&["weigh", job]).printed;
        let kinds = ["proved", "atmost"].map(Some);
        let Some(kind) = kinds
            .iter()
            .position(|kind| *kind == value(&gave, "answer"))
        else {
            continue;
        };
        let job = stored(job);
        let weights = weights(&job, &gave);
        assert_eq!(number(&gave, "steps"), weights.len());
        assert_eq!(number(&gave, "total"), weights.iter().sum::<usize>());
        assert!(number(&gave, "total") <= number(&job, "cost"));
        let (mut used, all) = (laws(), laws_of(&gave));
        used.retain(|law| all.contains(&&**law));
        assert_eq!(value(&gave, "uses"), Some(&*used.join(",")));
        let checked = puvainy_on(&["check"], derivation(&gave).as_bytes());
        assert_eq!(checked.printed, "answer=good\n");
        counts[kind] += 1;
    }
    assert!(counts[0] >= 5 && counts[1] >= 4, "{counts:?}");
    let filter = "grep -E '^(left|right|step)=' by-stock.weigh";
    assert_eq!(shell(filter).printed, stored("by-stock.derivation"));
}

/// FIND's derivations have fewer lines and weigh more.
#[test]
fn a_longer_derivation_weighs_less() {
    for (name, of_find, of_weigh) in [
        ("no-returns", &[9][..], &[2, 3, 3][..]),
        ("by-stock", &[9, 9, 1, 9], &[1; 7]),
    ] {
        let job = stored(&format!("{name}.weighing"));
        let [find, weigh] = ["answer", "weigh"].map(|ending| stored(&format!("{name}.{ending}")));
        assert_eq!(weights(&job, &find), of_find);
        assert_eq!(weights(&job, &weigh), of_weigh);
    }
    let even = puvainy(&["weigh", "no-returns-even.weighing"]).printed;
    assert_eq!(steps(&even), steps(&stored("no-returns.answer")));
    assert_eq!(number(&even, "total"), number(&even, "steps"));
    let orders = puvainy(&["weigh", "by-stock-orders.weighing"]).printed;
    assert_eq!(steps(&orders), steps(&stored("by-stock.answer")));
    assert_eq!(value(&orders, "total"), Some("12"));
    let given = |name| value(&stored(name), "weights").unwrap().to_owned();
    let exchanged = given("by-stock-orders.weighing").replacen("9 1", "1 9", 1);
    assert_eq!(exchanged, given("by-stock.weighing"));
}

/// The picture has each derivation's terms, laws and weights.
#[test]
fn the_picture_sets_weight_beside_weight() {
    let picture = stored("cheapest.svg");
    for (ending, who) in [("answer", "FIND"), ("weigh", "WEIGH")] {
        let answer = |name: &str| stored(&format!("{name}.{ending}"));
        let row = |name: &str| drawn(&picture, &format!("{name}-{}", who.to_lowercase())).0;
        let small = answer("no-returns");
        let left = value(&small, "left").unwrap();
        let lines = small.lines().filter_map(|line| line.strip_prefix("step="));
        let lines: Vec<_> = lines.collect();
        let terms = lines.iter().map(|line| line.split(" to=").nth(1).unwrap());
        let how = lines.iter().map(|line| line.split(" at=").next().unwrap());
        let weighed = weights(&stored("no-returns.weighing"), &small);
        let labels = how
            .zip(weighed)
            .map(|(how, weight)| format!(" {how}: {weight}"));
        let terms: Vec<_> = [left].into_iter().chain(terms).collect();
        let due = format!("{who} {}{}", terms.join(" "), labels.collect::<String>());
        assert_eq!(row("no-returns"), due);
        let weighed = weights(&stored("by-stock.weighing"), &answer("by-stock"));
        let numbers: Vec<_> = weighed.iter().map(usize::to_string).collect();
        let (count, sum) = (numbers.len(), weighed.iter().sum::<usize>());
        let due = format!("{who} {} {count} lines, {sum} in all", numbers.join(" "));
        assert_eq!(row("by-stock"), due);
    }
}
