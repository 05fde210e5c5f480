//! The guide's examples of letters for fixed tables.

use crate::common::{Folder, drawn, even, guide_from, puvainy, puvainy_on, sides, stored, value};

const KEYS: [&str; 2] = ["left", "right"];

/// The guide's section about these letters.
fn section() -> String {
    guide_from("Letters for fixed tables", "Checking a derivation")
}

/// What stands in back quotes in each row of the table that begins so.
fn rows(text: &str, begin: &str) -> Vec<Vec<String>> {
    let (_, table) = text.split_once(begin).unwrap();
    let (table, _) = table.split_once("\n\n").unwrap();
    let quoted = |row: &str| {
        row.split('`')
            .skip(1)
            .step_by(2)
            .map(str::to_owned)
            .collect()
    };
    table.lines().skip(2).map(quoted).collect()
}

/// Of every two rows it is known whether they share a name: two with v letters, two whose v letters alone differ.
#[test]
fn the_guides_table_shows_which_names_are_shared() {
    let rows = rows(&section(), "| Job | Its two plans |");
    for row in &rows {
        let [job, left, right, name_left, name_right] = &row[..] else {
            panic!("{row:?}");
        };
        let plans = stored(&format!("{job}.job"));
        assert!(plans.starts_with(&format!("left={left}\nright={right}\n")));
        let gave = puvainy(&["rename", &format!("{job}.job")]);
        let name = format!("left={name_left}\nright={name_right}\n");
        assert!(gave.printed.starts_with(&name), "{}", gave.printed);
        assert_eq!(gave.printed, stored(&format!("{job}.rename")));
    }
    let pairs = rows.iter().enumerate().flat_map(|(index, one)| {
        let others = rows[index + 1..].iter();
        let same = others.filter(move |other| one[3..] == other[3..]);
        same.map(move |other| [one[0].as_str(), other[0].as_str()])
    });
    let shared = [["priced-any", "stocked-any"], ["priced", "priced-archive"]];
    assert_eq!(pairs.collect::<Vec<_>>(), shared);
    assert_eq!(rows.len(), 5);
}

/// With Stock for Prices everywhere one equation becomes the other, so that only the c letter parts their names.
#[test]
fn jobs_that_differ_in_a_c_letter_have_two_names() {
    for ending in ["job", "rename", "answer", "derivation"] {
        let priced = stored(&format!("priced.{ending}"));
        let stocked = stored(&format!("stocked.{ending}"));
        assert_ne!(priced, stocked, "{ending}");
        assert_eq!(priced.replace("c0", "c1"), stocked, "{ending}");
    }
    let any = |name: &str, letter: &str| stored(&format!("{name}.job")).replace(letter, "c0");
    assert_eq!(any("priced-any", "v5"), stored("priced.job"));
    assert_eq!(any("stocked-any", "v6"), stored("priced.job"));
    for name in ["priced", "stocked"] {
        let gave = puvainy(&["check", &format!("{name}.derivation")]);
        assert_eq!(gave.printed, "answer=good\n");
    }
}

/// Every c letter is kept, also where another would make the equation smaller, and none is exchanged with another.
#[test]
fn rename_keeps_c_letters() {
    let limits = "steps=3\nsize=9\ndepth=4\nnodes=10\n";
    let renamed = |left: &str, right: &str| {
        let job = format!("left={left}\nright={right}\n{limits}");
        let gave = puvainy_on(&["rename"], job.as_bytes());
        assert_eq!(gave.status, Some(0), "{}", gave.said);
        gave.printed
    };
    let due = |lines: [&str; 4]| {
        let [left, right, wleft, wright] = lines;
        format!("left={left}\nright={right}\nwleft={wleft}\nwright={wright}\n")
    };
    let one = due(["* v0 c7", "* c7 v0", "v0 c7", "c7 v0"]);
    assert_eq!(renamed("* v9 c7", "* c7 v9"), one);
    assert_eq!(renamed("* c7 v3", "* v3 c7"), one);
    let two = due(["* c1 c99", "* c99 c1", "c1 c99", "c99 c1"]);
    assert_eq!(renamed("* c99 c1", "* c1 c99"), two);
    let none = due(["+ c0 0", "* 1 c0", "-", "-"]);
    assert_eq!(renamed("* 1 c0", "+ c0 0"), none);
    assert_ne!(renamed("* v0 + c0 c1", "v0"), renamed("* v0 + c1 c0", "v0"));
    let words = |job: &str| sides(job, ["wleft", "wright"]).map(str::to_owned);
    let stacked = renamed("* v0 + c0 c1", "v0");
    assert_eq!(words(&stacked), ["v0", "v0 c0;v0 c1"]);
    assert_eq!(words(&stacked), words(&renamed("* v5 + c1 c0", "v5")));
}

/// The proof names the v letters by number, and the c letters behind them.
#[test]
fn c_letters_are_not_counted_and_the_proof_names_them() {
    let gave = puvainy(&["find", "eight-tables.job"]);
    assert_eq!((gave.status, gave.said.as_str()), (Some(0), ""));
    assert_eq!(gave.printed, stored("eight-tables.answer"));
    let proof = value(&gave.printed, "proof").unwrap();
    let bound: String = (0..8).map(|name| format!("(lam x{name} ")).collect();
    assert!(
        proof.starts_with(&bound) && !proof.contains("x8"),
        "{proof}"
    );
    let tables = "(app (app (ref add) (ref x6)) (ref x7))";
    assert!(proof.contains(tables), "{proof}");
    let weighed = puvainy_on(&["weigh"], even(&stored("eight-tables.job")).as_bytes());
    assert_eq!(value(&weighed.printed, "proof"), Some(proof));
    let over = stored("eight-tables.job").replace("c0", "v6");
    let gave = puvainy_on(&["find"], over.as_bytes());
    assert_eq!(gave.printed, "answer=refused\nnumber=4\n");
    let said = "puvainy: standard input: lines 1 and 2, 7 v letters: \
                both sides together have over six different v letters; \
                give a part that all plans of the job share a letter of its own, \
                or a fixed table a c letter (refusal 4)\n";
    assert_eq!(gave.said, said);
}

/// Two sides of 31 nodes with another letter at each leaf.
#[test]
fn two_sides_have_up_to_32_letters() {
    let stack = |letters: &[String]| "+ ".repeat(15) + &letters.join(" ");
    let letters = |v: std::ops::Range<usize>, c: std::ops::Range<usize>| {
        let v = v.map(|number| format!("v{number}"));
        v.chain(c.map(|number| format!("c{number}")))
            .collect::<Vec<_>>()
    };
    let [left, right] = [letters(0..3, 0..13), letters(3..6, 87..100)].map(|all| stack(&all));
    let job = format!("left={left}\nright={right}\nsteps=0\nsize=31\ndepth=15\nnodes=0\n");
    let find = puvainy_on(&["find"], job.as_bytes());
    let due = format!("answer=none\nleft={left}\nright={right}\nexpanded=0\ncut=no\n");
    assert_eq!((find.status, find.printed), (Some(0), due));
    let rename = puvainy_on(&["rename"], job.as_bytes());
    assert_eq!(sides(&rename.printed, KEYS), [left, right]);
    let words = puvainy_on(&["words"], job.as_bytes());
    assert!(words.printed.contains("\nleft=v0;v1;v2;c0;c1;"));
}

#[test]
fn two_c_letters_are_two_tables() {
    let words = puvainy(&["words", "wrong-table.job"]).printed;
    assert_eq!(words, stored("wrong-table.words"));
    let [left, right] = sides(&words, KEYS);
    let told = format!("WORDS says `same=no`, with the words `{left}` and `{right}`.");
    assert!(section().contains(&told));
    let gave = puvainy(&["find", "--names", "names.txt", "wrong-table.job"]);
    assert_eq!(
        (gave.status, gave.printed),
        (Some(0), stored("wrong-table.answer"))
    );
    let shown = format!("```\n{}```", gave.said);
    assert!(section().contains(&shown), "{}", gave.said);
}

/// What is no c letter is told with its item, by every entry that reads terms.
#[test]
fn what_is_no_c_letter_is_refused_by_2() {
    let gave = puvainy(&["find", "refused-2-table.job"]);
    assert_eq!(gave.printed, stored("refused-2-table.answer"));
    assert!(gave.said.contains(": line 1 (left), item 1 (c100): "));
    for item in ["c100", "c00", "c01", "c", "C0", "c0c0", "c-1"] {
        let job = stored("priced.job").replacen("c0", item, 1);
        let derivation = stored("priced.derivation").replacen("c0", item, 1);
        let texts = [
            ("find", &job),
            ("words", &job),
            ("rename", &job),
            ("same", &job),
            ("weigh", &even(&job)),
            ("check", &derivation),
        ];
        for (word, text) in texts {
            let gave = puvainy_on(&[word], text.as_bytes());
            assert_eq!(gave.printed, "answer=refused\nnumber=2\n", "{word} {item}");
            let said = format!(
                "puvainy: standard input: line 1 (left), item 4 ({item}): \
                 the item is none of +, *, 0, 1, v0 to v999, c0 to c99; \
                 write each item so, and one space between items (refusal 2)\n"
            );
            assert_eq!(gave.said, said);
        }
    }
}

#[test]
fn the_guides_table_of_puts_tells_the_kinds() {
    let guide = stored("../guide.md");
    let rows = rows(&guide, "| Number | Put | `key` |");
    let puts = guide.split("| Number | Put | `key` |").nth(1).unwrap();
    let kinds = puts.lines().skip(2).map(|row| row.trim_end_matches(" |"));
    let kinds = kinds.filter_map(|row| row.rsplit_once(" | ").map(|(_, kinds)| kinds));
    let folder = Folder::new("table-of-puts");
    let file = folder.file("training.catalogue");
    for ((number, row), kinds) in (1..).zip(&rows).zip(kinds) {
        let [put, key, left, right] = &row[..] else {
            panic!("{row:?}");
        };
        let begin = format!("number={number}\nkey={key}\nleft={left}\nright={right}\n");
        assert!(stored(&format!("{put}.put")).starts_with(&begin), "{put}");
        let gave = puvainy(&["put", "--catalogue", &file, &format!("{put}.put")]);
        assert_eq!(gave.printed, format!("kinds={kinds}\n"), "{put}");
    }
    assert_eq!(rows.len(), 5);
    let play = stored("tables.play");
    let puts = rows.iter().map(|row| format!("put {}.put\n", row[0]));
    assert!(play.starts_with(&puts.collect::<String>()));
}

/// By words, an equation that holds is of one kind with every other, and the two mistakes with v letters are one kind.
#[test]
fn by_words_what_holds_is_one_kind_whatever_c_letters_it_has() {
    let folder = Folder::new("words");
    let file = folder.file("training.catalogue");
    let put = |text: String| puvainy_on(&["put", "--catalogue", &file], text.as_bytes()).printed;
    let by_words = |name: &str| stored(&format!("{name}.put")).replacen("=raw", "=words", 1);
    assert_eq!(put(by_words("priced")), "kinds=1\n");
    assert_eq!(put(by_words("stocked")), "kinds=1\n");
    let any = |name: &str, table: &str| stored(&format!("{name}.put")).replace(table, "v9");
    assert_eq!(put(any("dropped-prices", "c0")), "kinds=2\n");
    assert_eq!(put(any("dropped-stock", "c1")), "kinds=2\n");
}

/// The picture shows the plans and their names as they are stored: letter under letter, a c letter under itself.
#[test]
fn the_picture_keeps_c_letters() {
    let picture = stored("fixed-tables.svg");
    let mut fixed = Vec::new();
    for (job, name, called) in [
        ("priced-any", "name-any", "their name"),
        ("stocked-any", "name-any", "their name"),
        ("priced", "name-priced", "its name"),
        ("stocked", "name-stocked", "its name"),
    ] {
        let shown = |row: &str, called: &str, file: String| {
            let text = stored(&file);
            let [left, right] = sides(&text, KEYS);
            let (text, letters) = drawn(&picture, row);
            assert_eq!(text, format!("{called} left= {left} right= {right}"));
            letters
        };
        let plans = shown(job, job, format!("{job}.job"));
        let due = shown(name, called, format!("{job}.rename"));
        assert_eq!(plans.len(), due.len());
        for ((letter, colour), (to, due)) in plans.iter().zip(&due) {
            assert_eq!(colour, due, "{job}");
            let is_fixed = letter.starts_with('c');
            assert!(!is_fixed || letter == to, "{job}");
            fixed.extend(is_fixed.then(|| colour.clone()));
        }
    }
    fixed.sort();
    fixed.dedup();
    assert_eq!(
        (fixed.len(), picture.matches(&fixed[0]).count() > 6),
        (1, true)
    );
}
