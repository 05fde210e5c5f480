//! What the guide says of the quick yes or no, and where each of them leads on.

use crate::common::{counts, drawn, guide_from, puvainy, shell, stored, value};

/// The guide's section about SAME.
fn section() -> String {
    guide_from("The quick yes or no", "Which word parts two plans")
}

#[test]
fn the_guide_shows_what_is_printed() {
    let one = puvainy(&["same", "archive.job"]);
    assert!(section().contains(&format!(
        "For `puvainy same archive.job`:\n\n```\n{}```",
        one.printed
    )));
    let drafts = "puvainy same stock-forgotten.job stock-twice.job stock-right.job";
    let several = shell(&drafts.replacen("puvainy", "$P", 1));
    assert_eq!((several.status, several.said.as_str()), (Some(0), ""));
    assert!(section().contains(&format!("`{drafts}`:\n\n```\n{}```", several.printed)));
}

/// In each row the counts are the guide's rule's, and the answers those that are given; both nones have nothing left to open.
#[test]
fn the_guides_table_shows_counts_and_answers() {
    let section = section();
    let (_, table) = section.split_once("| Job | Draft | Its words |").unwrap();
    let (table, _) = table.split_once("\n\n").unwrap();
    let mut rows = 0;
    for row in table.lines().skip(2) {
        let row = row.replace('`', "");
        let cells: Vec<_> = row.trim_matches('|').split('|').map(str::trim).collect();
        let [name, draft, own, plans, same, words, find] = cells[..] else {
            panic!("{row}");
        };
        let job = stored(&format!("{name}.job"));
        let plan = "* + v0 v3 + v1 v2";
        assert!(job.starts_with(&format!("left={draft}\nright={plan}\n")));
        assert_eq!(
            [own, plans],
            counts([draft, plan]).map(|count| count.to_string())
        );
        let ask = |word| puvainy(&[word, &format!("{name}.job")]).printed;
        assert_eq!(ask("same"), format!("{same}\n"));
        let told = |answer: &str, key| Some(format!("{key}={}", value(answer, key)?));
        let last = told(&ask("words"), "differ");
        assert_eq!(last.as_deref().unwrap_or("no such line"), words);
        let answer = ask("find");
        assert_eq!(answer, stored(&format!("{name}.answer")));
        let due = match told(&answer, "cut") {
            Some(cut) => {
                assert_eq!(cut, "cut=no");
                format!("none, {}", told(&answer, "expanded").unwrap())
            }
            None => format!("proved, {} lines", value(&answer, "steps").unwrap()),
        };
        assert_eq!(due, find);
        rows += 1;
    }
    assert_eq!(rows, 3);
}

/// A no leads by WORDS to a draft that gets a yes, and a yes leads to FIND, if not always to a derivation at once.
#[test]
fn a_no_leads_to_words_and_a_yes_to_find() {
    for name in ["stock-forgotten", "stock-twice"] {
        let words = puvainy(&["words", &format!("{name}.job")]).printed;
        let [plan, draft] =
            ["left", "right"].map(|key| value(&words, key).unwrap().split(';').nth(2));
        assert_eq!(plan, Some("v3 v1"));
        assert_ne!(draft, plan);
    }
    let right = stored("stock-right.job");
    assert_eq!(
        stored("stock-forgotten.job").replacen("* v3 v2", "* v3 + v2 v1", 1),
        right
    );
    assert_eq!(
        stored("stock-twice.job").replacen("+ v2 v2", "+ v2 v1", 1),
        right
    );
    let proved = puvainy(&["find", "stock-right.job"]).printed;
    let steps: Vec<_> = proved
        .split_inclusive('\n')
        .filter(|line| line.starts_with("step="))
        .collect();
    assert!(
        section().contains(&format!("```\n{}```", steps.concat())),
        "{proved}"
    );
    assert_eq!(
        puvainy(&["same", "own-rows-size.job"]).printed,
        "same=yes\n"
    );
    let none = puvainy(&["find", "own-rows-size.job"]);
    assert!(
        none.printed.starts_with("answer=none\n")
            && none.said.contains("; raise steps, size or depth, ")
    );
}

/// The draft that gets a no keeps the search going.
#[test]
fn a_draft_that_gets_a_no_costs_the_search_of_all() {
    assert_eq!(puvainy(&["same", "drafts-third.job"]).printed, "same=no\n");
    let opened = |job: &str| {
        let gave = shell(&format!("{job} | $P find")).printed;
        let counts = gave
            .lines()
            .filter_map(|line| line.strip_prefix("expanded="));
        counts.map(|count| count.parse::<usize>().unwrap()).max()
    };
    let third = value(&stored("drafts-third.job"), "right")
        .unwrap()
        .to_owned();
    assert_eq!(opened("cat drafts.job"), Some(78));
    assert_eq!(
        opened(&format!("grep -vxF 'right={third}' drafts.job")),
        Some(26)
    );
    assert!(section().contains("for it FIND opened 78 terms, where the two others need 26"));
}

/// The guide's lines for the shell pick the jobs that get a yes, and FIND answers these.
#[test]
fn the_shell_goes_by_the_line() {
    let section = section();
    let (_, lines) = section
        .split_once("(the names must have no spaces):\n\n")
        .unwrap();
    let (lines, _) = lines.split_once("\n\n").unwrap();
    let lines = lines.replace("puvainy ", "\"$P\" ");
    let gave = shell(&format!(
        "d=$(mktemp -d) && cp *.job $d && cd $d && {{ {lines}\n}} >/dev/null 2>&1; cat yes.txt; cat all.answer; rm -r $d"
    ));
    let asked = shell(
        "for job in *.job; do [ \"$($P same $job 2>/dev/null)\" = same=yes ] && echo $job; done",
    )
    .printed;
    assert!(asked.contains("stock-right.job\n") && !asked.contains("stock-twice.job\n"));
    let due = asked.clone() + &shell(&format!("$P find {}", asked.replace('\n', " "))).printed;
    assert_eq!(gave.printed, due);
    let (_, line) = section
        .split_once("A script has to go by the line: `")
        .unwrap();
    let (line, _) = line.split_once('`').unwrap();
    let ask = |job: &str| shell(&line.replace("puvainy ", "$P ").replace("year.job", job)).printed;
    assert_eq!(
        [ask("year.job"), ask("year-right.job")],
        [String::new(), stored("year-right.answer")]
    );
    assert_eq!(puvainy(&["same", "year.job"]).status, Some(0));
}

/// The picture shows each draft with its counts and what is answered: one colour for a no, another for a yes.
#[test]
fn the_picture_leads_from_the_line_to_words_or_find() {
    let picture = stored("same.svg");
    let plan = value(&stored("stock-right.job"), "right")
        .unwrap()
        .to_owned();
    let mut colours = Vec::new();
    for (name, last) in [
        ("stock-forgotten", "WORDS differ=2 mend it"),
        ("stock-twice", "WORDS differ=2 mend it"),
        ("stock-right", "FIND answer=proved file it"),
    ] {
        let draft = value(&stored(&format!("{name}.job")), "left")
            .unwrap()
            .to_owned();
        let [own, plans] = counts([&draft, &plan]);
        let same = stored(&format!("{name}.same"));
        let (text, boxes) = drawn(&picture, name);
        assert_eq!(
            text,
            format!(
                "{name} {draft} {own} and {plans} {} {last}",
                same.trim_end()
            )
        );
        let answers = [
            stored(&format!("{name}.words")),
            stored(&format!("{name}.answer")),
        ]
        .concat();
        assert!(
            last.split(' ')
                .nth(1)
                .is_some_and(|line| answers.contains(&format!("{line}\n")))
        );
        colours.push(boxes[1].clone());
        assert_eq!(own != plans, boxes[0].1 == boxes[1].1);
    }
    assert_eq!(colours[0], colours[1]);
    assert_ne!(colours[0].1, colours[2].1);
}
