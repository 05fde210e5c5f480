//! Puts and withdrawals, on a catalogue that is kept in a file.

use std::fs;

use crate::common::{Folder, Gave, guide_from, puvainy, puvainy_on, stored};

/// The bytes of a catalogue's file.
const BYTES: u64 = 1_384_452;

/// It was done: the catalogue then holds so many kinds.
fn done(gave: Gave, kinds: usize) {
    let printed = format!("kinds={kinds}\n");
    assert_eq!(
        (gave.status, gave.printed),
        (Some(0), printed),
        "{}",
        gave.said
    );
    assert_eq!(gave.said, "");
}

/// It was refused: its two lines, and this said.
fn refused(gave: Gave, number: usize, said: &str) {
    let printed = format!("answer=refused\nnumber={number}\n");
    assert_eq!((gave.status, gave.printed), (Some(1), printed));
    assert_eq!(gave.said, format!("puvainy: {said}\n"));
}

/// The guide's sections about catalogues.
fn sections() -> String {
    guide_from("A catalogue for training", "Asking by the command")
}

/// A put under that number.
fn text(number: usize) -> String {
    let put = stored("archive.put");
    put.replacen("number=1\n", &format!("number={number}\n"), 1)
}

#[test]
fn a_put_makes_the_file_and_a_withdrawal_leaves_it() {
    let folder = Folder::new("made");
    let file = folder.file("training.catalogue");
    done(puvainy(&["put", "--catalogue", &file, "archive.put"]), 1);
    assert_eq!(fs::metadata(&file).unwrap().len(), BYTES);
    let text = stored("own-rows.put");
    let option = format!("--catalogue={file}");
    done(puvainy_on(&["put", &option], text.as_bytes()), 2);
    done(puvainy_on(&["withdraw", "-", &option], b"number=3\n"), 1);
    done(puvainy(&["withdraw", &option, "one.withdrawal"]), 0);
    let files = ["training.catalogue", "training.catalogue.lock"];
    assert_eq!(folder.files(), files);
    let again = puvainy_on(&["put", "--names", "names.txt", &option], text.as_bytes());
    done(again, 1);
}

/// The texts that a play of the guide lists give the stored kinds, all together as one at a time.
#[test]
fn the_guides_plays_give_the_stored_kinds() {
    for play in ["training", "training-words", "tables", "refused-changes"] {
        let folder = Folder::new(play);
        let file = folder.file("catalogue");
        let lines = stored(&format!("{play}.play"));
        let calls = lines.lines().map(|line| {
            let (word, text) = line.split_once(' ').unwrap();
            puvainy(&[word, "--catalogue", &file, text]).printed
        });
        let printed: String = calls.collect();
        assert_eq!(printed, stored(&format!("{play}.kinds")), "{play}");
    }
}

#[test]
fn several_are_made_in_order_and_a_bad_one_loses_nothing() {
    let folder = Folder::new("several");
    let file = folder.file("training.catalogue");
    let put = ["put", "--catalogue", &file];
    let texts = [
        "archive.put",
        "bad-key.put",
        "own-rows.put",
        "nowhere.put",
        "archive-words.put",
        "swapped-join.put",
    ];
    let gave = puvainy(&[&put[..], &texts].concat());
    let printed = "# archive.put\nkinds=1\n# bad-key.put\nanswer=refused\nnumber=1\n# own-rows.put\nkinds=2\n\
                   # nowhere.put\n# archive-words.put\nanswer=refused\nnumber=13\n# swapped-join.put\nkinds=3\n";
    assert_eq!((gave.status, gave.printed.as_str()), (Some(2), printed));
    let said = "puvainy: bad-key.put: line 2 (key), Raw: the key is neither raw nor words; \
                write key=raw or key=words (refusal 1)\n\
                puvainy: cannot read nowhere.put: there is no such file\n\
                puvainy: archive-words.put: line 1 (number), 1: the number is listed already; \
                take another, or withdraw the entry that has it first (refusal 13)\n\
                puvainy: listed: 1 and 3\n";
    assert_eq!(gave.said, said);
    let gave = puvainy(&[
        "withdraw",
        "--catalogue",
        &file,
        "two.withdrawal",
        "one.withdrawal",
    ]);
    let printed = "# two.withdrawal\nanswer=refused\nnumber=14\n# one.withdrawal\nkinds=2\n";
    assert_eq!((gave.status, gave.printed.as_str()), (Some(1), printed));
    let said = "puvainy: two.withdrawal: line 1 (number), 2: the number is not listed; \
                write one that is; if its entry was withdrawn before, do nothing (refusal 14)\n\
                puvainy: listed: 1, 3 and 4\n";
    assert_eq!(gave.said, said);
}

/// The example of each row of the guide's table is refused with that row's number and words.
#[test]
fn each_row_of_the_guides_table_has_an_example() {
    let guide = sections();
    let (_, table) = guide.split_once("| No. |").unwrap();
    let rows: Vec<_> = table
        .lines()
        .filter(|line| line.starts_with("| "))
        .collect();
    assert_eq!(rows.len(), 10);
    for (index, row) in rows.iter().enumerate() {
        let cells: Vec<_> = row.trim_matches(['|', ' ']).split(" | ").collect();
        let [number, wrong, example, to_do] = cells[..] else {
            panic!("{row}");
        };
        let folder = Folder::new(&format!("row-{index}"));
        let mut file = folder.file("training.catalogue");
        let word = if example.contains("puvainy withdraw") {
            "withdraw"
        } else {
            "put"
        };
        let mut text = example.split('`').nth(1).unwrap_or_default().to_owned();
        match number {
            "99" => file = std::mem::replace(&mut text, "archive.put".to_owned()),
            "13" => done(puvainy(&["put", "--catalogue", &file, &text]), 1),
            "15" => hold_64(&file),
            _ => {}
        }
        let gave = match text.is_empty() {
            true if number == "1" => puvainy_on(&[word, "--catalogue", &file], &[b'a'; 1025]),
            true => puvainy_on(&[word, "--catalogue", &file], self::text(65).as_bytes()),
            false => puvainy(&[word, "--catalogue", &file, &text]),
        };
        let printed = format!("answer=refused\nnumber={number}\n");
        assert_eq!((gave.status, gave.printed), (Some(1), printed), "{row}");
        let told = format!(": {wrong}; {to_do} (refusal {number})\n").replace('`', "");
        assert!(gave.said.contains(&told), "{}", gave.said);
    }
}

/// Puts 64 entries into the catalogue.
fn hold_64(file: &str) {
    for number in 1..=64 {
        let gave = puvainy_on(&["put", "--catalogue", file], text(number).as_bytes());
        assert_eq!(gave.status, Some(0), "{}", gave.said);
    }
}

#[test]
fn a_full_catalogue_takes_another_after_a_withdrawal() {
    let folder = Folder::new("full");
    let file = folder.file("training.catalogue");
    hold_64(&file);
    let put = |number| puvainy_on(&["put", "--catalogue", &file], text(number).as_bytes());
    let gave = put(999);
    let all: Vec<_> = (1..64).map(|number| number.to_string()).collect();
    let said = format!(
        "standard input: {file}: 64 entries are listed, which is all that a catalogue holds; \
         withdraw one first, or put this one into another catalogue (refusal 15)\n\
         puvainy: listed: {} and 64",
        all.join(", ")
    );
    refused(gave, 15, &said);
    let gave = puvainy_on(&["withdraw", "--catalogue", &file], b"number=30\n");
    assert_eq!(gave.status, Some(0));
    assert_eq!(put(999).status, Some(0));
    assert_eq!(put(30).printed, "answer=refused\nnumber=15\n");
}

/// Number, key and lines are judged before any term, and terms before the catalogue.
#[test]
fn the_first_refusal_counts() {
    let folder = Folder::new("order");
    let file = folder.file("training.catalogue");
    done(puvainy(&["put", "--catalogue", &file, "archive.put"]), 1);
    let same = stored("bad-same.put");
    for (from, to, number) in [
        ("number=6", "number=1", 6),
        ("steps=3", "steps=17", 5),
        ("left=v0", "left=v0 +", 2),
        ("key=raw", "key=w", 1),
    ] {
        let text = same
            .replacen(from, to, 1)
            .replacen("number=6", "number=1", 1);
        let gave = puvainy_on(&["put", "--catalogue", &file], text.as_bytes());
        assert_eq!(gave.printed, format!("answer=refused\nnumber={number}\n"));
    }
}

#[test]
fn a_refusal_shows_the_plans_with_names() {
    let folder = Folder::new("names");
    let file = folder.file("training.catalogue");
    let put = ["put", "--catalogue", &file, "--names", "names.txt"];
    let gave = puvainy(&[&put[..], &["bad-term.put"]].concat());
    let said = "bad-term.put: line 3 (left), item 2: the term is whole before this item; \
                put each sign before its two parts (refusal 2)\n\
                puvainy: left: Orders + 0\npuvainy: right: Orders";
    refused(gave, 2, said);
    let gave = puvainy(&["withdraw", "--names", "names.txt", "--catalogue", &file]);
    let said = "puvainy: there is no option --names here; --help shows those there are\n";
    assert_eq!((gave.status, gave.said.as_str()), (Some(2), said));
    assert_eq!(folder.files(), ["training.catalogue.lock"]);
}

#[test]
fn the_guide_shows_the_texts_and_what_is_said() {
    let guide = sections();
    let folder = Folder::new("shown");
    let file = folder.file("training.catalogue");
    for name in ["archive.put", "one.withdrawal"] {
        let shown = format!("```\n{}```", stored(name));
        assert!(guide.contains(&shown), "{name}");
    }
    let puts = [
        "archive.put",
        "other-letters.put",
        "own-rows.put",
        "swapped-join.put",
        "swapped-nothing.put",
    ];
    let put = ["put", "--catalogue", &file];
    assert_eq!(puvainy(&[&put[..], &puts].concat()).status, Some(0));
    let gave = puvainy(&[&put[..], &["archive.put"]].concat());
    let shown = format!("```\n{}```", gave.said);
    assert!(guide.contains(&shown), "{}", gave.said);
}

/// Each row of the guide's table of five puts, by both keys; the picture draws the same kinds.
#[test]
fn the_guides_table_and_picture_tell_the_kinds() {
    let guide = sections();
    let (_, table) = guide.split_once("| Number | Put |").unwrap();
    let (table, _) = table.split_once("\n\n").unwrap();
    let rows = table.lines().skip(2);
    let rows: Vec<Vec<_>> = rows
        .map(|row| row.trim_matches(['|', ' ']).split(" | ").collect())
        .collect();
    assert_eq!(rows.len(), 5);
    let picture = stored("kinds.svg");
    for (key, ending, column) in [("raw", "", 4), ("words", "-words", 5)] {
        let kinds = stored(&format!("training{ending}.kinds"));
        for (row, kinds) in rows.iter().zip(kinds.lines()) {
            let [number, name, left, right] = [0, 1, 2, 3].map(|cell| row[cell].trim_matches('`'));
            let begin = format!("number={number}\nkey={key}\nleft={left}\nright={right}\n");
            let text = stored(&format!("{name}{ending}.put"));
            assert!(text.starts_with(&begin), "{begin}");
            assert_eq!(kinds, format!("kinds={}", row[column]), "{name}");
            assert!(picture.contains(&format!(">{number} {name}<")), "{name}");
        }
        let title = format!(">key={key}: {} kinds<", rows[4][column]);
        assert!(picture.contains(&title), "{title}");
    }
}

/// The lines that the picture has beside its kinds are those of RENAME.
#[test]
fn the_picture_shows_what_rename_gives() {
    let picture = stored("kinds.svg");
    let shown = picture.split('>').filter_map(|text| text.split_once('<'));
    let shown: Vec<_> = shown
        .map(|(text, _)| text)
        .filter(|text| text.contains('='))
        .collect();
    let mut count = 0;
    for name in [
        "archive",
        "other-letters",
        "own-rows",
        "swapped-join",
        "swapped-nothing",
    ] {
        let put = stored(&format!("{name}.put"));
        let job = put.splitn(3, '\n').nth(2).unwrap();
        let gave = puvainy_on(&["rename"], job.as_bytes());
        for line in gave.printed.lines() {
            assert!(shown.contains(&line), "{name}: {line}");
            count += 1;
        }
    }
    assert_eq!((count, shown.len()), (20, 14));
}
