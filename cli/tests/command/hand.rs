//! What the guide says of a derivation in hand, and of when to stop.

use puvainy::Entry;

use crate::common::{
    ask, drawn, guide_from, laws, number, puvainy, puvainy_on, shell, steps, stored, value, weigh,
    with,
};

/// The guide's section about a derivation in hand.
fn section() -> String {
    guide_from("When to stop", "A refused weighing")
}

/// What an answer says of these, as the guide writes it.
fn shown(answer: &str, keys: &[&str]) -> String {
    let lines = keys
        .iter()
        .filter_map(|key| Some(format!("{key}={}", value(answer, key)?)));
    lines.collect::<Vec<_>>().join(", ")
}

#[test]
fn the_guide_shows_a_job_its_answer_and_what_is_said() {
    let section = section();
    let whole = stored("quiet-week-20.weigh");
    let (answer, _) = whole.split_once("proof=").unwrap();
    let gave = puvainy(&["weigh", "--names", "names.txt", "quiet-week-20.weighing"]);
    assert_eq!((gave.status, &gave.printed), (Some(0), &whole));
    for text in [&stored("quiet-week-20.weighing"), answer, &gave.said] {
        assert!(section.contains(&format!("```\n{text}```")), "{text}");
    }
    let gain = number(&whole, "total") - number(&whole, "atleast");
    assert!(
        gave.said
            .contains(&format!(" can still gain {gain} at most; "))
    );
    assert!(section.contains(&format!("Here it is 11 less 4, so {gain}.")));
}

/// The rows of the guide's table of one job with more and more nodes.
fn rows() -> Vec<[String; 5]> {
    let section = section();
    let (_, table) = section
        .split_once("| Job | `nodes` | Answer | More can gain | So |\n")
        .unwrap();
    let (table, _) = table.split_once("\n\n").unwrap();
    let row = |row: &str| {
        let row = row.replace('`', "");
        let cells = row.trim_matches(['|', ' ']).split(" | ");
        let cells: Vec<_> = cells.map(str::to_owned).collect();
        cells.try_into().expect("five cells")
    };
    table.lines().skip(1).map(row).collect()
}

/// Each row is its job, the last one's with that node limit, and what it is answered.
#[test]
fn the_guides_table_leads_from_no_derivation_to_a_proved_one() {
    let mut kinds = Vec::new();
    for [name, nodes, answer, ..] in rows() {
        let due = with(&stored("quiet-week.weighing"), "nodes", nodes);
        assert_eq!(stored(&name), due);
        let printed = puvainy(&["weigh", &name]).printed;
        assert_eq!(printed, stored(&name.replace(".weighing", ".weigh")));
        let kind = value(&printed, "answer").unwrap();
        let keys = ["total", "atleast", "expanded", "cut"];
        assert_eq!(answer, format!("{kind}, {}", shown(&printed, &keys)));
        kinds.push(kind.to_owned());
    }
    assert_eq!(kinds, ["none", "atmost", "atmost", "atmost", "proved"]);
    let proved = stored("quiet-week.weigh");
    for name in ["quiet-week-100.weigh", "quiet-week-150.weigh"] {
        assert_eq!(steps(&stored(name)), steps(&proved));
    }
}

/// What more nodes can gain is the difference, and what to do is what is said.
#[test]
fn the_guides_table_tells_what_more_can_gain_and_what_to_do() {
    for [name, _, _, gain, so] in rows() {
        let gave = puvainy(&["weigh", &name]);
        assert_eq!(gave.status, Some(0));
        let kind = value(&gave.printed, "answer").unwrap();
        let total = || number(&gave.printed, "total");
        let due = match kind {
            "none" => "not known".to_owned(),
            "atmost" => (total() - number(&gave.printed, "atleast")).to_string(),
            _ => "0".to_owned(),
        };
        assert_eq!(gain, due, "{name}");
        match kind {
            "proved" => assert_eq!((gave.said.as_str(), so.as_str()), ("", "take it")),
            _ => assert!(gave.said.contains(&format!("; {so}")), "{name}"),
        }
    }
}

/// The last line of the derivation in hand is a heavy one. The proved one has the laws of the one that the guide compares it with.
#[test]
fn the_guide_tells_which_lines_are_heavy() {
    let held = stored("quiet-week-20.weigh");
    let last = steps(&held).lines().last().unwrap().to_owned();
    assert!(last.starts_with("step=right_distrib forward "));
    assert_eq!(
        value(&held, "uses"),
        Some("add_assoc,add_comm,right_distrib")
    );
    let proved = stored("quiet-week.weigh");
    assert_eq!(
        value(&proved, "uses"),
        value(&stored("no-returns.weigh"), "uses")
    );
    let told = "its last line is `right_distrib`, which copies the stock table and weighs 9 alone.";
    assert!(section().contains(told));
    let place = laws()
        .iter()
        .position(|law| law == "right_distrib")
        .unwrap();
    let job = stored("quiet-week-20.weighing");
    assert_eq!(
        value(&job, "weights").unwrap().split(' ').nth(place),
        Some("9")
    );
}

/// More nodes may gain nothing of the difference.
#[test]
fn the_difference_promises_nothing() {
    let job = stored("by-stock-narrow.weighing");
    let wide = with(&with(&stored("by-stock.weighing"), "cost", 28), "depth", 3);
    assert_eq!(with(&wide, "nodes", 100), job);
    let held = weigh(&job);
    assert_eq!(held, stored("by-stock-narrow.weigh"));
    assert_eq!(steps(&held), steps(&stored("by-stock.answer")));
    let told = shown(&held, &["answer", "total", "atleast"]);
    assert_eq!(told, "answer=atmost, total=28, atleast=21");
    let more = weigh(&with(&job, "nodes", 4096));
    let told = shown(&more, &["answer", "total", "expanded"]);
    assert_eq!(told, "answer=proved, total=28, expanded=1224");
    assert_eq!(steps(&more), steps(&held));
    assert!(section().contains("with `total=28` and `atleast=21`. With more nodes it stays: it is proved, after 1,224 terms."));
}

/// Slots that run out refuse the job, though with fewer nodes there is a derivation in hand.
#[test]
fn with_fewer_nodes_fewer_slots_are_needed() {
    let job = stored("by-stock-narrow.weighing");
    for (nodes, slots) in [(1000, 1667), (100, 234)] {
        let job = with(&job, "nodes", nodes);
        assert_eq!(ask(Entry::Weigh, slots - 1, &job), Err(7), "{nodes}");
        let held = ask(Entry::Weigh, slots, &job).unwrap();
        assert!(held.starts_with("answer=atmost\n"));
    }
    let told = "with `nodes=1000` needs 1,667 slots. With `nodes=100`, as stored, 234 are enough";
    assert!(section().contains(told));
}

/// At the bound of nodes the command says to take it or to narrow, and narrower limits lead to a proved one.
#[test]
fn where_nodes_cannot_be_raised_it_is_to_be_taken() {
    let job = with(&stored("quiet-week.weighing"), "nodes", 4096);
    let even = with(&job, "weights", "1 1 3 1 1 1 1 9 2 2");
    let wide = |job: &str| with(&with(job, "size", 13), "depth", 4);
    let command = |job: &str| puvainy_on(&["weigh"], job.as_bytes());
    let keys = ["answer", "total", "atleast", "expanded"];
    let gave = command(&wide(&even));
    let told = "answer=atmost, total=8, atleast=6, expanded=4096";
    assert_eq!(
        (gave.status, shown(&gave.printed, &keys)),
        (Some(0), told.to_owned())
    );
    let said = "gain 2 at most; no limit that helps can be raised: narrow size or depth as far as the plans allow, or take it\n";
    assert!(gave.said.ends_with(said), "{}", gave.said);
    let narrow = command(&even);
    assert_eq!(
        shown(&narrow.printed, &keys),
        "answer=proved, total=8, expanded=238"
    );
    assert_eq!(narrow.said, "");
    let lightest = command(&wide(&job));
    let told = "answer=atmost, total=8, atleast=8, expanded=4096";
    assert_eq!(shown(&lightest.printed, &keys), told);
    assert!(
        lightest.said.ends_with(
            ": atmost: nodes ran out, but the derivation in hand is a lightest; take it\n"
        )
    );
    assert!(section().contains("gives `total=8` and `atleast=6`. With 9 and 3, as stored, it is proved, with `total=8` after 238 terms."));
}

/// A script goes by the line.
#[test]
fn the_shell_goes_by_the_line() {
    let line = "grep -qE '^answer=(proved|atmost)$' quiet-week-20.weigh && echo swap";
    assert!(section().contains(&format!("\n    {line}\n")));
    for (name, printed) in [
        ("quiet-week", "swap\n"),
        ("quiet-week-20", "swap\n"),
        ("quiet-week-5", ""),
        ("by-stock-cost", ""),
        ("by-stock-wide", ""),
    ] {
        let gave = shell(&line.replace("quiet-week-20", name));
        assert_eq!(gave.printed, printed, "{name}");
    }
}

/// The lines of the picture go through what each node limit gives.
#[test]
fn the_picture_shows_both_weights_node_by_node() {
    let picture = stored("in-hand.svg");
    let job = stored("quiet-week.weighing");
    let place = |tenths: usize| match tenths % 10 {
        0 => (tenths / 10).to_string(),
        rest => format!("{}.{rest}", tenths / 10),
    };
    let x = |nodes: usize| place(760 + 42 * nodes);
    let y = |weight: usize| 346 - 20 * weight;
    let end = number(&stored("quiet-week.weigh"), "expanded");
    for key in ["total", "atleast"] {
        let mut path = String::new();
        let mut before = None;
        for nodes in 0..end {
            let answer = weigh(&with(&job, "nodes", nodes));
            let Some(weight) = value(&answer, key).map(|weight| weight.parse().unwrap()) else {
                continue;
            };
            match before.replace(weight) {
                None => path = format!("M{} {}", x(nodes), y(weight)),
                Some(same) if same == weight => {}
                Some(_) => path += &format!("H{}V{}", x(nodes), y(weight)),
            }
        }
        let path = format!("<g id=\"{key}\">\n<path d=\"{path}H{}\" ", x(end));
        assert!(picture.contains(&path), "{path}");
    }
}

/// The columns of the picture are the guide's jobs.
#[test]
fn the_picture_names_the_answers_of_the_guides_jobs() {
    let picture = stored("in-hand.svg");
    for name in [
        "quiet-week-5",
        "quiet-week-20",
        "quiet-week-100",
        "quiet-week-150",
        "quiet-week",
    ] {
        let answer = stored(&format!("{name}.weigh"));
        let texts = drawn(&picture, name).0;
        let kind = value(&answer, "answer").unwrap();
        let gain = match kind {
            "atmost" => format!(" {}", number(&answer, "total") - number(&answer, "atleast")),
            _ => String::new(),
        };
        assert_eq!(
            texts,
            format!("{} {kind}{gain}", number(&answer, "expanded"))
        );
    }
}
