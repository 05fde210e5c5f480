//! A catalogue by plain, beside one that knows numbers and the Rust's lines alone.

use std::collections::{BTreeMap, BTreeSet};

use crate::plain::catalogue::{Catalogue, Kept, Key, PLACES, Put, read_withdrawal, returned};
use crate::rust;
use crate::{Ask, CATALOGUE, Sent};

/// A key, and the Rust's lines for it.
type Kind = (Key, String);

/// Each call is made by plain, by places, and by the entries accepted and not withdrawn since.
pub struct Judged {
    pub plain: Catalogue,
    /// The kinds by number; nothing where the Rust is left out.
    by_number: Option<BTreeMap<u32, Kind>>,
}

impl Judged {
    /// An empty catalogue. Without the Rust, plain is believed.
    pub fn new(is_plain: bool) -> Judged {
        Judged {
            plain: Catalogue::default(),
            by_number: (!is_plain).then(BTreeMap::new),
        }
    }

    /// What the call gives, or how the two differ.
    pub fn call(&mut self, sent: &Sent) -> Result<Kept, String> {
        let kept = self.plain.call(sent);
        let Some(by_number) = &mut self.by_number else {
            return Ok(kept);
        };
        let other = count(by_number, sent);
        let what = "plain and the entries by number, with the Rust's lines";
        same(what, returned(&kept), returned_number(other), sent)?;
        if let (Ask::Put, Ok(done)) = (sent.ask, &kept) {
            let held = self.plain.at(done.place).expect("it was put there");
            let (_, lines) = &by_number[&held.number];
            same(
                "the lines of plain and of the Rust",
                &held.lines,
                lines,
                sent,
            )?;
        }
        Ok(kept)
    }
}

/// The count of different kinds after the call, or the refusal. The texts are read by plain.
fn count(by_number: &mut BTreeMap<u32, Kind>, sent: &Sent) -> Result<usize, u8> {
    if sent.numbers != CATALOGUE {
        return Err(99);
    }
    match sent.ask {
        Ask::Put => {
            let put = Put::read(&sent.text)?;
            if by_number.contains_key(&put.number) {
                return Err(13);
            }
            if by_number.len() == PLACES {
                return Err(15);
            }
            let lines = rust::kind_lines(put.key, &put.equation);
            by_number.insert(put.number, (put.key, lines));
        }
        Ask::Withdraw => {
            let number = read_withdrawal(&sent.text)?;
            by_number.remove(&number).ok_or(14)?;
        }
    }
    let kinds: BTreeSet<&Kind> = by_number.values().collect();
    Ok(kinds.len())
}

fn returned_number(counted: Result<usize, u8>) -> usize {
    counted.map_or_else(usize::from, |kinds| 100 + kinds)
}

fn same<T: PartialEq + std::fmt::Display>(
    what: &str,
    plain: T,
    other: T,
    sent: &Sent,
) -> Result<(), String> {
    if plain == other {
        return Ok(());
    }
    let sent = sent.show();
    Err(format!(
        "difference: {what}\n{sent}--- plain\n{plain}\n--- other\n{other}\n"
    ))
}
