//! Derivations put to CHECK.

use crate::common::{Gave, derivation, guide_from, puvainy, puvainy_on, shell, stored};

const GOOD: &str = "answer=good\n";

/// A refused derivation: its two lines, and this said.
fn refused(gave: Gave, number: usize, said: &str) {
    let printed = format!("answer=refused\nnumber={number}\n");
    assert_eq!((gave.status, gave.printed), (Some(1), printed));
    assert_eq!(gave.said, format!("puvainy: {said}\n"));
}

/// The guide's sections about derivations.
fn sections() -> String {
    guide_from("Checking a derivation", "A catalogue for training")
}

#[test]
fn a_good_one_is_0_from_a_file_and_from_standard_input() {
    for name in [
        "archive",
        "archive-back",
        "dead-join",
        "there-and-back",
        "planner-mended",
    ] {
        let file = format!("{name}.derivation");
        let text = stored(&file);
        for gave in [
            puvainy(&["check", &file]),
            puvainy_on(&["check"], text.as_bytes()),
            puvainy_on(&["check", "--names", "names.txt", "-"], text.as_bytes()),
        ] {
            assert_eq!(
                (gave.status, gave.printed.as_str(), gave.said.as_str()),
                (Some(0), GOOD, ""),
                "{name}"
            );
        }
    }
}

/// The example of each row of the guide's table is refused with that row's number and words.
#[test]
fn each_row_of_the_guides_table_has_an_example() {
    let guide = sections();
    let (_, table) = guide.split_once("| No. |").unwrap();
    let rows = table.lines().filter(|line| line.starts_with("| "));
    let mut count = 0;
    for row in rows {
        let cells: Vec<_> = row.trim_matches(['|', ' ']).split(" | ").collect();
        let [number, wrong, example, to_do] = cells[..] else {
            panic!("{row}");
        };
        let file = example.split('`').nth(1).unwrap();
        let gave = match number {
            "8" => puvainy(&["check", "--room", "11", file]),
            _ => puvainy(&["check", file]),
        };
        let printed = format!("answer=refused\nnumber={number}\n");
        assert_eq!((gave.status, gave.printed), (Some(1), printed), "{row}");
        let told = format!(": {wrong}; {to_do} (refusal {number})\n").replace('`', "");
        assert!(gave.said.ends_with(&told), "{}", gave.said);
        count += 1;
    }
    assert_eq!(count, 26);
}

/// The three kinds of line of every proved answer are good, taken as the guide does it.
#[test]
fn what_find_proves_is_good() {
    let line = "grep -E '^(left|right|step)=' archive.answer > archive.derivation";
    assert!(stored("../guide.md").contains(&format!("\n    {line}\n")));
    let filter = line.split(" > ").next().unwrap();
    let gave = shell(filter);
    assert_eq!(gave.printed, stored("archive.derivation"));
    let all = filter.replace("archive.answer", "\"$f\"");
    let gave = shell(&format!(
        "for f in $(grep -lx answer=proved *.answer); do \
           [ \"$(grep -c ^answer= \"$f\")\" = 1 ] && {all} | $P check; \
         done"
    ));
    let proved = gave.printed.lines().count();
    assert!(proved > 8, "{proved}");
    assert_eq!(
        (gave.printed, gave.said.as_str()),
        (GOOD.repeat(proved), "")
    );
    let long = shell("$P find refused-8.job | grep -E '^(left|right|step)=' | $P check");
    assert_eq!((long.status, long.printed.as_str()), (Some(0), GOOD));
}

/// Each block of an answer with several is a derivation by itself.
#[test]
fn what_find_proves_of_several_right_sides_is_good() {
    let answer = stored("drafts.answer");
    let blocks = answer
        .split("answer=")
        .filter(|block| block.starts_with("proved\n"));
    let mut count = 0;
    for block in blocks {
        let gave = puvainy_on(&["check"], derivation(block).as_bytes());
        assert_eq!((gave.status, gave.printed.as_str()), (Some(0), GOOD));
        count += 1;
    }
    assert_eq!(count, 2);
}

#[test]
fn a_refusal_names_the_line() {
    let law = "bad-law.derivation: line 4 (step 2), law (add_com): the law is none of the ten; \
               write its name as the table of laws has it, and one space behind it (refusal 1)";
    refused(puvainy(&["check", "bad-law.derivation"]), 1, law);
    let item = "bad-item.derivation: line 3 (step 1), item 9 (V1): \
                the item is none of +, *, 0, 1, v0 to v999, c0 to c99; \
                write each item so, and one space between items (refusal 2)";
    refused(puvainy(&["check", "bad-item.derivation"]), 2, item);
    let stops = "bad-stops.derivation: line 4 (step 2): \
                 every line holds, but the last result is another term than right; \
                 write the lines that are missing behind it, \
                 or the last result as right if that is the plan you mean (refusal 12)";
    refused(puvainy(&["check", "bad-stops.derivation"]), 12, stops);
    let named = puvainy(&["check", "--names", "names.txt", "bad-stops.derivation"]);
    let shown = "\npuvainy: step 2: Archive + ((Orders * North stock) + (Orders * South stock))\
                 \npuvainy: right: ((Orders * North stock) + (Orders * South stock)) + Archive";
    refused(named, 12, &format!("{stops}{shown}"));
}

#[test]
fn the_guide_shows_the_derivations_and_what_is_said() {
    let guide = sections();
    for name in ["archive", "dead-join", "planner", "planner-2"] {
        let text = stored(&format!("{name}.derivation"));
        assert!(guide.contains(&format!("```\n{text}```")), "{name}");
    }
    let gave = puvainy(&["check", "--names", "names.txt", "planner.derivation"]);
    assert_eq!(gave.status, Some(1));
    assert!(
        guide.contains(&format!("```\n{}```", gave.said)),
        "{}",
        gave.said
    );
}

/// The guide's way to find the line: a beginning of the lines, with the last result kept as right, is good up to the bad line.
#[test]
fn a_bad_line_is_found_by_leaving_lines_away() {
    let whole = stored("planner.derivation");
    let lines: Vec<_> = whole.lines().collect();
    for kept in 1..=8 {
        let steps = &lines[2..2 + kept];
        let (_, result) = steps[kept - 1].split_once(" to=").unwrap();
        let text = format!("{}\nright={result}\n{}\n", lines[0], steps.join("\n"));
        if let 2..=4 = kept {
            assert_eq!(text, stored(&format!("planner-{kept}.derivation")));
        }
        let gave = puvainy_on(&["check"], text.as_bytes());
        let due = match kept {
            1..=3 => GOOD,
            _ => "answer=refused\nnumber=12\n",
        };
        assert_eq!(gave.printed, due, "{kept}");
    }
}

/// Lines of two that meet are one derivation, unless the whole has too many letters.
#[test]
fn derivations_are_joined_where_the_whole_fits() {
    let (archive, back) = (
        stored("archive.derivation"),
        stored("archive-back.derivation"),
    );
    let steps = back.split_inclusive('\n').skip(2);
    let round = archive.split_inclusive('\n').chain(steps).map(|line| {
        let there = line.strip_prefix("right=");
        there.map_or(line.to_owned(), |_| "right=+ v4 * v0 + v2 v1\n".to_owned())
    });
    let gave = puvainy_on(&["check"], round.collect::<String>().as_bytes());
    assert_eq!((gave.status, gave.printed.as_str()), (Some(0), GOOD));
    let lines = |letters: std::ops::Range<usize>| {
        let there = |n| format!("step=mul_zero forward at=. to=* v{n} 0\n");
        let both = |n| there(n) + "step=mul_zero back at=. to=0\n";
        format!("left=0\nright=0\n{}", letters.map(both).collect::<String>())
    };
    for (letters, due) in [
        (0..4, GOOD),
        (4..7, GOOD),
        (0..7, "answer=refused\nnumber=4\n"),
    ] {
        let gave = puvainy_on(&["check"], lines(letters).as_bytes());
        assert_eq!(gave.printed, due);
    }
}

#[test]
fn several_are_printed_in_order_and_a_bad_one_loses_nothing() {
    let gave = puvainy(&[
        "check",
        "archive.derivation",
        "bad-none.derivation",
        "nowhere",
        "dead-join.derivation",
    ]);
    let printed = "# archive.derivation\nanswer=good\n# bad-none.derivation\nanswer=refused\nnumber=11\n\
                   # nowhere\n# dead-join.derivation\nanswer=good\n";
    assert_eq!((gave.status, gave.printed.as_str()), (Some(2), printed));
    let said = "puvainy: bad-none.derivation: behind line 2 (right): there is no step line; \
                write a line for each change; where nothing changes there is nothing to file (refusal 11)\n\
                puvainy: cannot read nowhere: there is no such file\n";
    assert_eq!(gave.said, said);
    let files: Vec<_> = ["archive.derivation", "planner.derivation"]
        .into_iter()
        .cycle()
        .take(300)
        .collect();
    let gave = puvainy(&[&["check"], &files[..]].concat());
    let answers = ["answer=good\n", "answer=refused\nnumber=12\n"];
    let due = files.iter().zip(answers.iter().cycle());
    let due: String = due
        .map(|(file, answer)| format!("# {file}\n{answer}"))
        .collect();
    assert_eq!((gave.status, gave.printed), (Some(1), due));
}

#[test]
fn room_is_given_and_slots_are_not() {
    let room = |bytes| puvainy(&["check", "--room", bytes, "archive.derivation"]);
    assert_eq!(room("12").printed, GOOD);
    let said = "archive.derivation: with --room 11: the answer is longer than the output room; \
                give 12 bytes of room at least (refusal 8)";
    refused(room("11"), 8, said);
    let slots = puvainy(&["check", "--slots", "4", "archive.derivation"]);
    assert_eq!((slots.status, slots.printed.as_str()), (Some(2), ""));
    let said = "puvainy: there is no option --slots here; --help shows those there are\n";
    assert_eq!(slots.said, said);
    let bad = puvainy(&["check", "--room", "0", "planner.derivation"]);
    assert_eq!(bad.printed, "answer=refused\nnumber=12\n");
    assert!(
        bad.said.contains("line 6 (step 4), which makes "),
        "{}",
        bad.said
    );
}

/// A good text of as many bytes as one may have; with one more it is too long.
#[test]
fn the_most_bytes_are_8192() {
    let line = |direction| format!("step=add_comm {direction} at=. to=+ v0 v0\n");
    let steps = line("forward").repeat(15) + &line("back").repeat(217);
    let text = format!("left=+ v0 v0\nright=+ v0 v0\n{steps}");
    assert_eq!(text.len(), 8192);
    let good = puvainy_on(&["check"], text.as_bytes());
    assert_eq!((good.status, good.printed.as_str()), (Some(0), GOOD));
    let long = puvainy_on(&["check"], format!("{text}\n").as_bytes());
    assert_eq!(long.printed, "answer=refused\nnumber=1\n");
    assert!(long.said.contains(": the text has over 8,192 bytes; "));
    let longer = puvainy_on(&["check"], &[b'a'; 1 << 20]);
    assert_eq!(longer.printed, long.printed);
}

#[test]
fn a_job_and_a_text_that_is_no_derivation_are_refused() {
    let job = "archive.job: line 3: behind right there is a line that is no step line; \
               write step lines alone there, and end the text after the last (refusal 1)";
    refused(puvainy(&["check", "archive.job"]), 1, job);
    let empty = "standard input: line 1 (left): the line is missing; \
                 write left, then right, then the step lines (refusal 1)";
    refused(puvainy(&["check"]), 1, empty);
    let endless = shell("$P check /dev/zero");
    assert_eq!(endless.status, Some(1));
    let foul = stored("archive.derivation").replace("add_comm", "add\u{1b}[2J");
    let gave = puvainy_on(&["check"], foul.as_bytes());
    assert!(gave.said.contains("law (add\\u{1b}[2J): "), "{}", gave.said);
}
