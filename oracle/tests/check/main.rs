//! Points of the third wish of document 02, derivations for CHECK, that are left to be read.

mod lines;
mod read;
mod refused;

use oracle::{Call, Entry, checked};

/// 0 for a good text, else the refusal.
fn given_with(text: &str, room: usize) -> u8 {
    let call = Call {
        entry: Entry::Check,
        slots: 0,
        room,
        job: text.as_bytes().to_vec(),
    };
    let given = checked::answer(&call).unwrap_or_else(|difference| panic!("{difference}"));
    given.map_or_else(
        |number| number,
        |text| {
            assert_eq!(text, b"answer=good\n");
            0
        },
    )
}

fn given(text: &str) -> u8 {
    given_with(text, 12)
}
