//! What a none's last line says, and where its advice leads.

use puvainy::{Buffers, Entry, MOST_SLOTS, Room};

use crate::common::{number, puvainy, puvainy_on, stored, value, with};

/// How many terms the answer says were opened.
fn opened(answer: &str) -> usize {
    number(answer, "expanded")
}

/// FIND's answer, or its refusal's number.
fn find(buffers: &mut Buffers, job: &str) -> Result<String, usize> {
    let answer = buffers.ask(Entry::Find, job.as_bytes())?;
    Ok(str::from_utf8(answer).expect("text").to_owned())
}

/// Jobs of the guide: searches that end in a derivation, and some that end in a none.
const JOBS: [&str; 10] = [
    "archive",
    "dead-join",
    "drafts-third",
    "drop-nothing",
    "four-joins",
    "nothing-first",
    "own-rows",
    "own-rows-depth",
    "own-rows-size",
    "twice",
];

/// `cut=yes` is advice to raise nodes: one more opens a term more, and a step more changes nothing.
#[test]
fn one_node_more_leads_on_exactly_where_cut_says_yes() {
    let mut buffers = Buffers::new(MOST_SLOTS, Room::Grows);
    let (mut yes, mut no) = (0, 0);
    for name in JOBS {
        let job = stored(&format!("{name}.job"));
        for steps in 0..=4 {
            let job = with(&job, "steps", steps);
            for nodes in 0..=30 {
                let asked = with(&job, "nodes", nodes);
                let mut ask = |key, limit| find(&mut buffers, &with(&asked, key, limit)).unwrap();
                let answer = ask("nodes", nodes);
                let more = ask("nodes", nodes + 1);
                match value(&answer, "cut") {
                    Some("yes") => {
                        assert_eq!([opened(&answer), opened(&more)], [nodes, nodes + 1]);
                        assert_eq!(ask("steps", steps + 1), answer, "{asked}");
                        yes += 1;
                    }
                    Some("no") => {
                        assert_eq!(more, answer, "{asked}");
                        assert_eq!(ask("nodes", 1000), answer, "{asked}");
                        no += 1;
                    }
                    _ => assert_eq!(more, answer, "{asked}"),
                }
            }
        }
    }
    assert!(yes > 200 && no > 200, "{yes} and {no}");
}

/// No node at all: left is left unopened, unless it may not be opened either.
#[test]
fn without_nodes_cut_says_yes_where_there_are_steps() {
    let job = with(&stored("nothing-first.job"), "nodes", 0);
    for (steps, cut) in [(0, "no"), (1, "yes"), (16, "yes")] {
        let gave = puvainy_on(&["find"], with(&job, "steps", steps).as_bytes());
        assert_eq!(opened(&gave.printed), 0);
        assert_eq!(value(&gave.printed, "cut"), Some(cut), "{steps} steps");
    }
}

/// As many terms are opened in both as nodes allows; in one of them no other could be. The guide's picture shows it.
#[test]
fn nodes_are_to_be_raised_only_where_a_term_waits() {
    let picture = stored("to-open.svg");
    for (name, steps, cut, raise) in [
        ("nothing-first-nodes", 3, "yes", "nodes"),
        ("nothing-first-both", 1, "no", "steps, size or depth"),
    ] {
        let job = format!("{name}.job");
        assert_eq!(with(&stored(&job), "steps", steps), stored(&job));
        let gave = puvainy(&["find", &job]);
        assert_eq!(opened(&gave.printed), 1);
        assert_eq!(value(&gave.printed, "cut"), Some(cut));
        let told = format!("; raise {raise}, or ");
        assert!(gave.said.contains(&told), "{}", gave.said);
        assert!(picture.contains(&format!(">{name}: steps={steps}<")));
        assert!(picture.contains(&format!(">cut={cut}: raise {raise}<")));
    }
}

/// Each row of the guide's table is what its job is and is answered, and the next row's job has the limit raised that the answer says.
#[test]
fn the_advice_leads_from_row_to_row_of_the_guides_table() {
    let guide = stored("../guide.md");
    let (_, table) = guide.split_once("| Job | `steps` | `nodes` |").unwrap();
    let (table, _) = table.split_once("\n\n").unwrap();
    let mut before: Option<(String, String)> = None;
    for row in table.lines().skip(2) {
        let row = row.trim_matches(['|', ' ']).replace('`', "");
        let cells: Vec<_> = row.split('|').map(str::trim).collect();
        let (name, limits, answer) = (cells[0], &cells[1..3], cells[3]);
        let job = stored(name);
        assert_eq!(
            limits,
            ["steps", "nodes"].map(|key| value(&job, key).unwrap())
        );
        if let Some((former, raised)) = before.take() {
            let [limit, was] = [&job, &former].map(|job| number(job, &raised));
            assert!(limit > was, "{row}");
            assert_eq!(with(&former, &raised, limit), job, "{row}");
        }
        let gave = puvainy(&["find", name]);
        assert_eq!(gave.printed, stored(&name.replace(".job", ".answer")));
        let shown = |key| Some(format!("{key}={}", value(&gave.printed, key)?));
        let shown: Vec<_> = ["expanded", "cut"].into_iter().filter_map(shown).collect();
        let kind = value(&gave.printed, "answer").unwrap();
        assert_eq!(answer, format!("{kind}, {}", shown.join(", ")));
        if let [_, _, _, _, raised] = cells[..] {
            assert!(gave.said.contains(&format!("; raise {raised}, ")), "{row}");
            before = Some((job, raised.to_owned()));
        }
    }
    assert!(before.is_none());
}

#[test]
fn where_nodes_cannot_be_raised_a_narrower_search_leads_further() {
    let job = stored("turned-joins.job");
    let narrow = puvainy(&["find", "turned-joins.job"]);
    assert_eq!(value(&narrow.printed, "answer"), Some("proved"));
    assert_eq!(opened(&narrow.printed), 115);
    let wide = with(&with(&job, "size", 17), "depth", 4);
    let wide = puvainy_on(&["find"], wide.as_bytes());
    assert_eq!(value(&wide.printed, "answer"), Some("none"));
    assert_eq!(opened(&wide.printed), 4096);
    assert_eq!(value(&wide.printed, "cut"), Some("yes"));
    let stuck = "; no limit that helps can be raised: ";
    let told = format!("{stuck}narrow size or depth as far as the plans allow, ask puvainy words ");
    assert!(wide.said.contains(&told), "{}", wide.said);
    // Size and depth as narrow as the plans.
    let chain = "v0 + v1 + v2 + v3 + v4 + v5 + v0 v1";
    let limits = "steps=16\nsize=15\ndepth=7\nnodes=4096\n";
    let job = format!("left=+ {chain}\nright=* {chain}\n{limits}");
    let gave = puvainy_on(&["find"], job.as_bytes());
    assert_eq!(opened(&gave.printed), 4096);
    assert_eq!(value(&gave.printed, "cut"), Some("yes"));
    let told = format!("{stuck}ask puvainy words ");
    assert!(gave.said.contains(&told), "{}", gave.said);
}

/// The guide's figure.
#[test]
fn the_wide_search_needs_more_slots_than_400() {
    let job = stored("turned-joins.job");
    let wide = with(&with(&job, "size", 17), "depth", 4);
    let asked = |slots| find(&mut Buffers::new(slots, Room::Grows), &wide);
    assert!(asked(13_111).is_ok());
    assert_eq!(asked(13_110), Err(7));
    assert_eq!(asked(400), Err(7));
    assert!(stored("../guide.md").contains("13,111 terms"));
}

/// One search serves all right sides.
#[test]
fn right_sides_that_are_not_met_share_expanded_and_cut() {
    let job = stored("drafts.job");
    let mut buffers = Buffers::new(MOST_SLOTS, Room::Grows);
    let mut counts = [0; 4];
    for steps in 0..=3 {
        for nodes in 0..=80 {
            let asked = with(&with(&job, "steps", steps), "nodes", nodes);
            let answer = find(&mut buffers, &asked).unwrap();
            let blocks = answer.split("answer=");
            let nones = blocks.filter(|block| block.starts_with("none\n"));
            let ends: Vec<_> = nones
                .map(|none| [value(none, "expanded"), value(none, "cut")])
                .collect();
            assert!(ends.iter().all(|end| *end == ends[0]), "{asked}");
            counts[ends.len()] += 1;
        }
    }
    assert!(counts[1] > 0 && counts[2] > 0, "{counts:?}");
}

/// A term that is still to open has a slot beside those that were opened.
#[test]
fn slots_run_out_before_as_many_nodes_do() {
    let mut count = 0;
    for name in JOBS {
        let job = stored(&format!("{name}.job"));
        for slots in 1..=30 {
            let mut buffers = Buffers::new(slots, Room::Grows);
            for nodes in 0..=slots + 2 {
                let answer = find(&mut buffers, &with(&job, "nodes", nodes));
                if answer.is_ok_and(|answer| value(&answer, "cut") == Some("yes")) {
                    assert!(nodes < slots, "{name}, {slots} slots, {nodes} nodes");
                    count += 1;
                }
            }
        }
    }
    assert!(count > 100, "{count}");
    let job = "left=+ v0 v1\nright=+ v0 v2\nsteps=3\nsize=3\ndepth=1\nnodes=1\n";
    let answer = find(&mut Buffers::new(2, Room::Grows), job).unwrap();
    assert_eq!(value(&answer, "cut"), Some("yes"));
}
