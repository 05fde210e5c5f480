//! Which texts are c letters, where they stand in the order, and what is counted.

use oracle::plain::job;
use oracle::plain::term::Term;
use oracle::{Call, Entry, PROGRAM_ROOM, PROGRAM_SLOTS, checked};

fn given(entry: Entry, [left, right]: [&str; 2]) -> Result<String, u8> {
    let call = Call {
        entry,
        slots: PROGRAM_SLOTS,
        room: PROGRAM_ROOM,
        job: job::write(&[left, right, "1", "7", "3", "10"]),
    };
    let given = checked::answer(&call).unwrap_or_else(|difference| panic!("{difference}"));
    given.map(|text| String::from_utf8(text).expect("answers are ASCII"))
}

fn read(text: &str) -> Option<Term> {
    Term::read(text.as_bytes())
}

#[test]
fn c_letters_go_from_0_to_99() {
    for number in 0..100 {
        let text = format!("c{number}");
        assert_eq!(read(&text).map(|term| term.show()), Some(text));
    }
    let none = [
        "c", "c00", "c01", "c07", "c099", "c100", "c101", "c999", "c1000", "c65636", "C0", "c 0",
        "c-1", "c+1", "c0x", "c1.0", "cc1", "cv1", "vc1", "v1000", "v1001", "v1099", "1000",
        "c\u{663}",
    ];
    for text in none {
        assert_eq!(read(text), None, "{text}");
        for entry in Entry::OF_JOBS {
            let sum = format!("+ c1 {text}");
            assert_eq!(given(entry, [text, "v0"]), Err(2), "{text}");
            assert_eq!(given(entry, ["c1", &sum]), Err(2), "{sum}");
        }
    }
}

/// Every letter by its number, then 0.
#[test]
fn c_letters_stand_between_v_letters_and_0() {
    let letters = (0..1_000).map(|number| format!("v{number}"));
    let letters = letters.chain((0..100).map(|number| format!("c{number}")));
    let more = ["0", "1", "+ v0 v0", "+ c0 0", "* v0 v0"].map(str::to_owned);
    let terms = letters.chain(more).map(|text| read(&text).expect("a term"));
    let terms: Vec<Term> = terms.collect();
    assert!(terms.is_sorted_by(|one, other| one < other));
}

/// The sum of these letters.
fn sum(letters: &[String]) -> String {
    let (last, others) = letters.split_last().expect("a letter");
    let others = others.iter().map(|letter| format!("+ {letter} "));
    others.collect::<String>() + last
}

/// Up to six v letters pass beside any c letters that two sides hold.
#[test]
fn v_letters_alone_are_counted() {
    for v_count in 0..=8 {
        for total in [9, 16, 25, 32] {
            let v = (0..v_count).map(|number| format!("v{}", 100 * number));
            let c = (v_count..total).map(|number| format!("c{}", 3 * number));
            let letters: Vec<String> = v.chain(c).collect();
            let (left, right) = letters.split_at(total / 2);
            let sides = [sum(left), sum(right)];
            let sides = sides.each_ref().map(String::as_str);
            for entry in Entry::OF_JOBS {
                let due = (v_count > 6).then_some(4);
                assert_eq!(given(entry, sides).err(), due, "{sides:?}");
            }
        }
    }
}

/// A letter of a law stands for a c letter as for any other.
#[test]
fn lines_take_c_letters() {
    let text = given(Entry::Find, ["* c3 + v1 c2", "+ * c3 v1 * c3 c2"]).expect("one line");
    let step = "step=left_distrib forward at=. to=* c3 + v1 c2\n";
    let proof = "proof=(lam x0 (lam x1 (lam x2 (app (app (app (ref left_distrib) \
        (ref x2)) (ref x0)) (ref x1)))))\n";
    assert!(text.contains(step), "{text}");
    assert!(text.ends_with(proof), "{text}");
    let none = given(Entry::Find, ["* c3 + v1 c2", "+ * c3 v1 * c4 c2"]).expect("a none");
    assert!(none.starts_with("answer=none\n"), "{none}");
}
