//! The guide's examples of equations with and without a shared name.

use crate::common::{
    both_ways, drawn, guide_from, puvainy, puvainy_on, shell, sides, stored, value,
};

/// The guide's section about names.
fn section() -> String {
    guide_from(
        "What a shared name tells, and what it does not",
        "Letters for fixed tables",
    )
}

/// A row of its table: the job's name, and in twos its plans, RENAME's first lines and its last.
struct Row {
    job: String,
    plans: [String; 2],
    name: [String; 2],
    words: [String; 2],
}

fn rows() -> Vec<Row> {
    let section = section();
    let (_, table) = section.split_once("| Job | Its two plans |").unwrap();
    let (table, _) = table.split_once("\n\n").unwrap();
    let rows = table.lines().skip(2).map(|row| {
        let texts: Vec<_> = row.split('`').skip(1).step_by(2).collect();
        let [job, plans @ .., _, _, _, _] = &texts[..] else {
            panic!("{row}");
        };
        assert_eq!(plans.len(), 2, "{row}");
        let two = |first: usize| [0, 1].map(|next| texts[first + next].to_owned());
        Row {
            job: (*job).to_owned(),
            plans: two(1),
            name: two(3),
            words: two(5),
        }
    });
    rows.collect()
}

#[test]
fn the_guides_table_shows_what_rename_gives() {
    let rows = rows();
    for row in &rows {
        let ([left, right], [name_left, name_right]) = (&row.plans, &row.name);
        let job = stored(&format!("{}.job", row.job));
        assert!(job.starts_with(&format!("left={left}\nright={right}\n")));
        let [wleft, wright] = &row.words;
        let due = format!("left={name_left}\nright={name_right}\nwleft={wleft}\nwright={wright}\n");
        assert_eq!(stored(&format!("{}.rename", row.job)), due);
        let gave = puvainy(&["rename", &format!("{}.job", row.job)]);
        assert_eq!((gave.status, gave.printed), (Some(0), due));
    }
    let shared = |same: fn(&Row, &Row) -> bool| {
        let pairs = rows.iter().enumerate().flat_map(|(index, one)| {
            let others = rows[index + 1..].iter();
            others.filter_map(move |other| same(one, other).then_some([&one.job, &other.job]))
        });
        pairs.collect::<Vec<_>>()
    };
    let names = [["archive", "other-letters"], ["north-first", "south-first"]];
    assert_eq!(shared(|one, other| one.name == other.name), names);
    let words = shared(|one, other| one.words == other.words && one.words[0] != "-");
    assert_eq!(words, [["dropped-table", "dropped-dead"]]);
    let agree = rows.iter().filter(|row| row.words == ["-", "-"]);
    assert_eq!(agree.count(), 7);
}

#[test]
fn the_guides_name_with_limits_is_a_job_again() {
    let named = stored("archive-name.job");
    assert!(section().contains(&format!("```\n{named}```")));
    let (name, job) = (stored("archive.rename"), stored("archive.job"));
    let [left, right] = sides(&name, ["left", "right"]);
    let limits = &job[job.find("steps=").unwrap()..];
    assert_eq!(named, format!("left={left}\nright={right}\n{limits}"));
    assert_eq!(puvainy(&["rename", "archive-name.job"]).printed, name);
}

/// A text's lines of a derivation.
fn derivation(answer: &str) -> Vec<String> {
    let keys = ["left=", "right=", "step="];
    let is_kept = |line: &&str| keys.iter().any(|key| line.starts_with(key));
    answer.lines().filter(is_kept).map(str::to_owned).collect()
}

/// The derivation that leads the same way back.
fn turned_round(lines: &[String]) -> String {
    let [left, right, steps @ ..] = lines else {
        panic!("{lines:?}");
    };
    let [left, right] = [left, right].map(|line| line.split_once('=').unwrap().1);
    let results = steps.iter().map(|step| step.split_once(" to=").unwrap().1);
    let before = std::iter::once(left).chain(results);
    let mut turned = format!("left={right}\nright={left}\n");
    for (step, before) in steps.iter().zip(before).collect::<Vec<_>>().iter().rev() {
        let (line, _) = step.split_once(" to=").unwrap();
        let line = match line.contains(" forward ") {
            true => line.replace(" forward ", " back "),
            false => line.replace(" back ", " forward "),
        };
        turned += &format!("{line} to={before}\n");
    }
    turned
}

#[test]
fn a_derivation_with_changed_letters_is_good() {
    let section = section();
    let lines = section.lines();
    let line = lines
        .filter_map(|line| line.strip_prefix("    sed "))
        .next();
    let (filter, file) = line.unwrap().split_once(" > ").unwrap();
    assert_eq!(file, "other-letters.derivation");
    let gave = shell(&format!("sed {filter}"));
    assert_eq!(gave.printed, stored(file));
    let north = derivation(&stored("north-first.answer"));
    let swap = |line: &String| {
        let line = line.replace("v1", "x").replace("v2", "v1");
        line.replace('x', "v2")
    };
    let south: Vec<_> = north.iter().map(swap).collect();
    assert_eq!(turned_round(&south), stored("south-first.derivation"));
    for name in ["other-letters", "south-first"] {
        let text = stored(&format!("{name}.derivation"));
        let job = stored(&format!("{name}.job"));
        let keys = ["left", "right"];
        assert!(both_ways(sides(&job, keys)).contains(&sides(&text, keys)));
        let gave = puvainy(&["check", &format!("{name}.derivation")]);
        assert_eq!(
            (gave.status, gave.printed.as_str()),
            (Some(0), "answer=good\n")
        );
    }
    let gave = puvainy_on(&["check"], (south.join("\n") + "\n").as_bytes());
    assert_eq!(gave.printed, "answer=good\n");
}

/// What the guide says that a shared name does not tell, and a different one neither.
#[test]
fn a_name_does_not_tell_what_find_answers_or_what_plans_report() {
    let limits = |job: &str| job[job.find("steps=").unwrap()..].to_owned();
    let [north, south] = ["north-first", "south-first"].map(|name| {
        assert!(limits(&stored("north-first.job")) == limits(&stored(&format!("{name}.job"))));
        puvainy(&["find", &format!("{name}.job")]).printed
    });
    assert!(north.starts_with("answer=proved\n"));
    assert_eq!(value(&north, "steps"), Some("2"));
    assert!(south.starts_with("answer=none\n") && south.ends_with("\ncut=no\n"));
    let words = |name: &str| puvainy(&["words", &format!("{name}.job")]).printed;
    assert_eq!(words("own-rows"), words("own-rows-form"));
    assert_eq!(value(&words("dropped-table"), "same"), Some("no"));
    for (name, lists) in [
        ("dropped-table", "`v2` and `v5 v2`"),
        ("dropped-dead", "`v1` and `v3 v1`"),
    ] {
        let words = words(name);
        let [left, right] = sides(&words, ["left", "right"]);
        assert_eq!(format!("`{left}` and `{right}`"), lists);
        assert!(section().contains(&format!("{lists} for `{name}`")));
    }
}

/// The picture shows the plans as they stand in the jobs and in the name, and has a colour for each letter of the name, where there is a name to share.
#[test]
fn the_picture_sets_letter_under_letter() {
    let picture = stored("shared-name.svg");
    let name = stored("archive.rename");
    let [left, right] = sides(&name, ["left", "right"]);
    let (text, due) = drawn(&picture, "name");
    assert_eq!(text, format!("their name left= {left} right= {right}"));
    for (job, is_shared) in [
        ("archive", true),
        ("other-letters", true),
        ("one-stock", false),
    ] {
        let plans = stored(&format!("{job}.job"));
        let [left, right] = sides(&plans, ["left", "right"]);
        let (text, letters) = drawn(&picture, job);
        assert_eq!(text, format!("{job} right= {right} left= {left}"));
        let colours = |letters: &[(String, String)]| {
            let colours = letters.iter().map(|(_, colour)| colour.clone());
            colours.collect::<Vec<_>>()
        };
        assert_eq!(colours(&letters), colours(&due), "{job}");
        let one_to_one = letters
            .iter()
            .all(|(letter, colour)| letters.iter().all(|(l, c)| (letter == l) == (colour == c)));
        assert_eq!(one_to_one, is_shared, "{job}");
        let same = stored(&format!("{job}.rename")) == name;
        assert_eq!(same, is_shared, "{job}");
    }
}
