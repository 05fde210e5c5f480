//! Withdrawals: of numbers that are listed, by what else is of their kind, of others, and malformed ones.

use super::plays::Player;
use super::puts::{listed_number, unlisted_number};
use super::unfit::NUMBERS;
use crate::plain::catalogue::{Catalogue, Held, MOST_NUMBER};
use crate::plain::job::MOST_BYTES;
use crate::{Ask, Sent};

fn of(number: u32) -> Sent {
    Sent::new(Ask::Withdraw, format!("number={number}\n"))
}

/// Any listed number; one that isn't where there is none.
pub fn held(player: &mut Player, catalogue: &Catalogue) -> Sent {
    match listed_number(&mut player.random, catalogue) {
        Some(number) => of(number),
        None => unlisted(player, catalogue),
    }
}

/// An entry that no other is of a kind with.
pub fn last(player: &mut Player, catalogue: &Catalogue) -> Sent {
    by_kind(player, catalogue, true)
}

/// An entry that another is of a kind with.
pub fn one_of(player: &mut Player, catalogue: &Catalogue) -> Sent {
    by_kind(player, catalogue, false)
}

fn by_kind(player: &mut Player, catalogue: &Catalogue, is_last: bool) -> Sent {
    let all = catalogue.held();
    let is_alone = |held: &&Held| all.iter().filter(|other| other.is_of_kind(held)).count() == 1;
    let meant = all.iter().filter(|held| is_alone(held) == is_last);
    let meant: Vec<u32> = meant.map(|held| held.number).collect();
    match meant.is_empty() {
        true => held(player, catalogue),
        false => of(player.random.pick(&meant)),
    }
}

pub fn unlisted(player: &mut Player, catalogue: &Catalogue) -> Sent {
    of(unlisted_number(&mut player.random, catalogue))
}

/// What is no withdrawal, mostly one of a listed number with something wrong.
pub fn malformed(player: &mut Player, catalogue: &Catalogue) -> Sent {
    let good = held(player, catalogue).text;
    let random = &mut player.random;
    let (end, line) = good.split_last().expect("a line");
    let text = match random.below(12) {
        0..4 => [&b"number="[..], random.pick(&NUMBERS), &[*end]].concat(),
        4 => line.to_vec(),
        5 => good.repeat(2),
        6 => [&good[..], &[random.pick(b"\n\0 x=")]].concat(),
        7 => [&good[..], b"key=raw\n"].concat(),
        8 => [&[random.pick(b"\n\0 x=")], &good[..]].concat(),
        9 => good[random.below(good.len())..].to_vec(),
        10 => {
            let zeros = random.around(MOST_BYTES + 1) - good.len();
            [
                b"number=",
                &b"0".repeat(zeros)[..],
                &good["number=".len()..],
            ]
            .concat()
        }
        _ => {
            let mut text = good.clone();
            let at = random.below(text.len());
            text[at] = random.byte();
            text
        }
    };
    Sent::new(Ask::Withdraw, text)
}

/// One withdrawal of each number in any order; in a short play of those listed and of some others.
pub fn reading_back(player: &mut Player, catalogue: &Catalogue) -> Vec<Sent> {
    let random = &mut player.random;
    let mut numbers: Vec<u32> = (1..=MOST_NUMBER).collect();
    if player.is_short {
        numbers.retain(|&number| catalogue.is_listed(number) || random.below(60) == 0);
    }
    random.shuffle(&mut numbers);
    numbers.into_iter().map(of).collect()
}
