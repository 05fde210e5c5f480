//! What the guide says of cost and limits of WEIGH, and of its refusals.

use puvainy::Entry;

use crate::common::{
    ask, guide_from, number, puvainy, puvainy_on, shell, steps, stored, value, weigh, with,
};

/// The guide's sections about cost, limits and refusals.
fn sections() -> String {
    guide_from("Choosing cost and limits", "WORDS")
}

/// The cells of a row.
fn cells(row: &str) -> Vec<String> {
    let row = row.trim_matches(['|', ' ']).replace('`', "");
    row.split(" | ")
        .map(|cell| cell.trim().to_owned())
        .collect()
}

/// Each row is what its job is and is answered, and the next row's job has that limit raised which the row names, one of those that
/// are said.
#[test]
fn the_advice_leads_from_row_to_row_of_the_guides_table() {
    let sections = sections();
    let (_, table) = sections
        .split_once("| Job | `cost` | `depth` | `nodes` |")
        .unwrap();
    let (table, _) = table.split_once("\n\n").unwrap();
    let mut before: Option<(String, String)> = None;
    let mut rows = 0;
    for row in table.lines().skip(2) {
        let cells = cells(row);
        let (name, raise) = (&cells[0], cells.get(5).map_or("", |raise| raise.trim()));
        let job = stored(name);
        let limits = ["cost", "depth", "nodes"].map(|key| value(&job, key).unwrap());
        assert_eq!(cells[1..4], limits, "{row}");
        if let Some((former, raised)) = before.take() {
            let [limit, was] = [&job, &former].map(|job| number(job, &raised));
            assert!(limit > was, "{row}");
            assert_eq!(with(&former, &raised, limit), job, "{row}");
        }
        let gave = puvainy(&["weigh", name]);
        assert_eq!(gave.printed, stored(&name.replace(".weighing", ".weigh")));
        let shown = |key| Some(format!("{key}={}", value(&gave.printed, key)?));
        let shown: Vec<_> = ["total", "expanded", "cut"]
            .into_iter()
            .filter_map(shown)
            .collect();
        let kind = value(&gave.printed, "answer").unwrap();
        assert_eq!(
            cells[4].trim_end_matches([' ', '|']),
            format!("{kind}, {}", shown.join(", "))
        );
        if kind == "none" {
            let (_, said) = gave.said.split_once("; raise ").unwrap();
            let (said, _) = said.split_once(", or ask puvainy words").unwrap();
            assert!(said.split([',', ' ']).any(|key| key == raise), "{row}");
            before = Some((job, raise.to_owned()));
        }
        rows += 1;
    }
    assert_eq!((rows, before), (4, None));
}

#[test]
fn the_guide_shows_what_is_said_of_a_none() {
    let gave = puvainy(&["weigh", "--names", "names.txt", "by-stock-cost.weighing"]);
    assert_eq!(gave.status, Some(0));
    assert!(
        sections().contains(&format!("```\n{}```", gave.said)),
        "{}",
        gave.said
    );
    let none = puvainy(&["weigh", "by-stock-nodes.weighing"]);
    assert!(
        none.said
            .contains("nodes ran out with a term still to open; raise nodes, or ask ")
    );
    let full = with(&stored("by-stock-nodes.weighing"), "nodes", 4096);
    let full = with(&full, "cost", 28);
    let full = with(&full, "size", 31);
    let even = with(&full, "weights", "1 1 1 1 1 1 1 9 1 1");
    let stuck = puvainy_on(&["weigh"], even.as_bytes());
    assert!(stuck.printed.ends_with("\nexpanded=4096\ncut=yes\n"));
    let told = "; no limit that helps can be raised: narrow size or depth as far as the plans allow, ask puvainy words, \
                by a job with steps in place of cost and no weights, ";
    assert!(stuck.said.contains(told), "{}", stuck.said);
}

/// What FIND's derivation weighs is cost enough, but may need more slots.
#[test]
fn less_cost_needs_fewer_slots() {
    let [wide, narrow] =
        ["by-stock-wide", "by-stock"].map(|name| stored(&format!("{name}.weighing")));
    assert_eq!(with(&wide, "cost", 7), narrow);
    for (job, slots) in [(&wide, 1579), (&narrow, 301)] {
        assert_eq!(ask(Entry::Weigh, slots, job), Ok(stored("by-stock.weigh")));
        assert_eq!(ask(Entry::Weigh, slots - 1, job), Err(7));
    }
    let sections = sections();
    assert!(
        sections.contains("with `cost=28`, which needs 1,579 slots; with 400 it is refused by 7.")
    );
    assert!(sections.contains("With `cost=7`, 301 are enough, and the derivation is the same."));
    assert_eq!(stored("by-stock-wide.weigh"), "answer=refused\nnumber=7\n");
    let gave = puvainy(&["weigh", "--slots", "400", "by-stock-wide.weighing"]);
    assert_eq!(
        (gave.status, gave.printed),
        (Some(1), stored("by-stock-wide.weigh"))
    );
    let said = "puvainy: by-stock-wide.weighing: with --slots 400: WEIGH would note more terms than there are slots; ";
    assert!(gave.said.starts_with(said), "{}", gave.said);
}

#[test]
fn heavier_laws_for_0_and_1_make_a_shorter_search() {
    let job = with(&stored("by-stock.weighing"), "nodes", 4096);
    let light = with(&job, "weights", "1 1 1 1 1 1 1 9 1 1");
    let [own, light] = [job, light].map(|job| weigh(&job));
    assert_eq!(steps(&light), steps(&own));
    assert_eq!(
        [&light, &own].map(|answer| number(answer, "expanded")),
        [1289, 259]
    );
    assert!(sections().contains("would have to open 1,289 terms, in place of 259."));
}

/// The guide's line for the shell makes a job of the others.
#[test]
fn a_job_of_weigh_becomes_one_of_same() {
    let line = "sed 's/^cost=.*/steps=3/; /^weights=/d' by-stock.weighing | puvainy same";
    assert!(stored("../guide.md").contains(&format!("\n      {line}\n")));
    let gave = shell(&line.replace("puvainy", "$P"));
    assert_eq!(
        (gave.status, gave.printed.as_str()),
        (Some(0), "same=yes\n")
    );
    let find = shell(&line.replace("puvainy same", "$P find"));
    assert!(find.printed.starts_with("answer=none\n"));
}

#[test]
fn each_row_of_the_guides_table_has_an_example() {
    let sections = sections();
    let (_, table) = sections.split_once("| No. |").unwrap();
    let rows = table.lines().filter(|line| line.starts_with("| "));
    let mut count = 0;
    for row in rows {
        let cells: Vec<_> = row.trim_matches(['|', ' ']).split(" | ").collect();
        let [number, wrong, example, to_do] = cells[..] else {
            panic!("{row}");
        };
        let file = example.split('`').nth(1);
        let gave = match (number, file) {
            ("7", Some(file)) => puvainy(&["weigh", "--slots", "400", file]),
            ("8", Some(file)) => puvainy(&["weigh", "--room", "8703", file]),
            (_, Some(file)) => puvainy(&["weigh", file]),
            _ => puvainy_on(&["weigh"], &[b'a'; 1025]),
        };
        let printed = format!("answer=refused\nnumber={number}\n");
        assert_eq!((gave.status, gave.printed), (Some(1), printed), "{row}");
        let told = format!(": {wrong}; {to_do} (refusal {number})\n").replace('`', "");
        assert!(gave.said.ends_with(&told), "{}", gave.said);
        count += 1;
    }
    assert_eq!(count, 11);
    assert_eq!(stored("by-stock.weigh").len(), 8704);
    let weight = puvainy(&["weigh", "bad-weight.weighing"]).said;
    assert!(sections.contains(&format!("```\n{weight}```")), "{weight}");
}

/// 16 is looked at behind 5 and before 6.
#[test]
fn refusals_have_their_order() {
    let job = with(
        &stored("by-stock.weighing"),
        "right",
        "+ + * v0 v1 * v3 v1 + * v0 v2 * v3 v2",
    );
    let number = |key: &str, other: &str, due| {
        let gave = puvainy_on(&["weigh"], with(&job, key, other).as_bytes());
        assert_eq!(
            gave.printed,
            format!("answer=refused\nnumber={due}\n"),
            "{key}={other}"
        );
    };
    number("size", "15", 6);
    number("cost", "100", 16);
    number("weights", "1 1 3 1 3 3 1 0 2 2", 16);
    let both = with(&with(&job, "cost", 100), "nodes", 4097);
    assert_eq!(ask(Entry::Weigh, 0, &both), Err(5));
    assert_eq!(
        ask(
            Entry::Weigh,
            0,
            &with(&both, "left", "+ v0 * v1 + v2 * v3 + v4 * v5 v6")
        ),
        Err(4)
    );
    assert_eq!(
        ask(
            Entry::Weigh,
            0,
            &with(&both, "weights", "1 1 3 1 3 3 1 9 2")
        ),
        Err(1)
    );
    assert_eq!(ask(Entry::Weigh, 0, &stored("by-stock.weighing")), Err(7));
}

/// No job of so many bytes is accepted: it is refused for another reason.
#[test]
fn the_most_bytes_are_1024() {
    let job = stored("by-stock.weighing");
    let rest = with(&job, "right", "").len();
    for (bytes, due) in [(1024, 2), (1025, 1)] {
        let job = with(&job, "right", "+".repeat(bytes - rest));
        assert_eq!((job.len(), ask(Entry::Weigh, 0, &job)), (bytes, Err(due)));
    }
}
