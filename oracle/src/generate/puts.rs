//! Puts that pass refusals 1 to 6: new equations, and those that were put before in all their forms.

use super::bent::item_changed;
use super::changes::{Sides, led_on, with_other_letters};
use super::draft::{Draft, any_limits};
use super::listed::product_of_sums;
use super::plays::Player;
use super::random::Random;
use super::searched::{LARGEST, rewritten};
use super::tables::with_new_c;
use super::terms::{replaced_or_mixed, some_letters, term_up_to};
use crate::plain::{
    catalogue::{Catalogue, Key, MOST_NUMBER},
    job::MOST_LETTERS,
    term::Term,
};
use crate::{Ask, Sent};

/// An equation that was put, and the key under which it was.
#[derive(Clone)]
pub struct Known {
    pub sides: Sides,
    pub key: Key,
}

/// The most equations that a play comes back to.
const MOST_KNOWN: usize = 48;

/// The text of a put: any bytes behind `number=` and `key=`, and the job's.
pub struct PutDraft {
    pub number: Vec<u8>,
    pub key: Vec<u8>,
    pub job: Vec<u8>,
}

impl PutDraft {
    pub fn new(number: u32, key: Key, job: Vec<u8>) -> PutDraft {
        PutDraft {
            number: number.to_string().into_bytes(),
            key: key.name().into(),
            job,
        }
    }

    pub fn bytes(&self) -> Vec<u8> {
        let PutDraft { number, key, job } = self;
        [b"number=", &number[..], b"\nkey=", key, b"\n", job].concat()
    }

    pub fn sent(&self) -> Sent {
        Sent::new(Ask::Put, self.bytes())
    }
}

pub fn fresh(player: &mut Player, catalogue: &Catalogue) -> Sent {
    let known = new_equation(player);
    remember(player, &known);
    put(player, catalogue, &known)
}

/// As it was put, or with its sides exchanged.
pub fn again(player: &mut Player, catalogue: &Catalogue) -> Sent {
    let mut known = any_known(player);
    if player.random.percent(30) {
        known.sides.swap(0, 1);
    }
    put(player, catalogue, &known)
}

pub fn renamed(player: &mut Player, catalogue: &Catalogue) -> Sent {
    let mut known = any_known(player);
    known.sides = with_other_letters(&mut player.random, &known.sides);
    if player.random.percent(50) {
        known.sides.swap(0, 1);
    }
    put(player, catalogue, &known)
}

pub fn other_key(player: &mut Player, catalogue: &Catalogue) -> Sent {
    let mut known = any_known(player);
    known.key = known.key.other();
    put(player, catalogue, &known)
}

/// Ends of a chain of 1 to 4 lines, mostly under `key=words`, where all such entries are one kind.
pub fn agreed(player: &mut Player, catalogue: &Catalogue) -> Sent {
    let pool = some_letters(&mut player.random);
    let left = new_side(player, &pool);
    let random = &mut player.random;
    let right = led_on(random, &left);
    if left == right {
        return agreed(player, catalogue);
    }
    let key = random.pick(&[Key::Words, Key::Words, Key::Words, Key::Raw]);
    let mut sides = [left, right];
    random.shuffle(&mut sides);
    let known = Known { sides, key };
    remember(player, &known);
    put(player, catalogue, &known)
}

/// With one item changed, so that lists differ in few places, or with one side rewritten by a law, which keeps its
/// words; where c letters are drawn, in one of three with another c letter everywhere.
pub fn alike(player: &mut Player, catalogue: &Catalogue) -> Sent {
    let mut known = any_known(player);
    let random = &mut player.random;
    if random.has_c() && random.below(3) == 0 {
        known.sides = with_new_c(random, &known.sides);
        remember(player, &known);
        return put(player, catalogue, &known);
    }
    let side = &mut known.sides[random.below(2)];
    *side = match random.below(2) {
        0 => item_changed(random, side),
        _ => rewritten(random, side, LARGEST),
    };
    if known.sides[0] == known.sides[1] {
        return fresh(player, catalogue);
    }
    remember(player, &known);
    put(player, catalogue, &known)
}

/// Products of sums over five or six letters, most of which have 324 words.
pub fn large(player: &mut Player, catalogue: &Catalogue) -> Sent {
    let random = &mut player.random;
    let count = random.pick(&[MOST_LETTERS - 1, MOST_LETTERS, MOST_LETTERS]);
    let pool = replaced_or_mixed(random, count);
    let sides = [(); 2].map(|()| product_of_sums(random, &pool));
    if sides[0] == sides[1] {
        return large(player, catalogue);
    }
    let key = random.pick(&[Key::Words, Key::Words, Key::Raw]);
    let known = Known { sides, key };
    remember(player, &known);
    put(player, catalogue, &known)
}

/// A good put under a number that is listed, if there is one.
pub fn listed(player: &mut Player, catalogue: &Catalogue) -> Sent {
    let known = match player.random.below(3) {
        0 => new_equation(player),
        _ => any_known(player),
    };
    let number = listed_number(&mut player.random, catalogue);
    let number = number.unwrap_or_else(|| unlisted_number(&mut player.random, catalogue));
    let job = job(&mut player.random, &known.sides);
    PutDraft::new(number, known.key, job).sent()
}

/// A put of the equation under a number that isn't listed.
fn put(player: &mut Player, catalogue: &Catalogue, known: &Known) -> Sent {
    let random = &mut player.random;
    let number = unlisted_number(random, catalogue);
    let job = job(random, &known.sides);
    PutDraft::new(number, known.key, job).sent()
}

/// A job with these sides. Its limits are within their bounds; no put depends on them.
pub fn job(random: &mut Random, [left, right]: &Sides) -> Vec<u8> {
    let limits = any_limits(random);
    Draft::new(left, [right], limits).bytes()
}

pub fn new_equation(player: &mut Player) -> Known {
    let pool = some_letters(&mut player.random);
    let sides = [(); 2].map(|()| new_side(player, &pool));
    if sides[0] == sides[1] {
        return new_equation(player);
    }
    let key = player.random.pick(&Key::ALL);
    Known { sides, key }
}

/// A term over these letters, mostly small.
fn new_side(player: &mut Player, pool: &[u16]) -> Term {
    let random = &mut player.random;
    let most = match (player.is_varied, player.is_short) {
        (true, _) => random.pick(&[5, 7, 9, 11, 15]),
        (false, true) => random.pick(&[1, 3, 3, 5, 5, 7]),
        (false, false) => random.pick(&[1, 3, 3, 5, 5, 7, 9, 15, 31]),
    };
    term_up_to(random, most, pool)
}

/// An equation that was put before, or a new one where there is none, and mostly in a varied play.
pub fn any_known(player: &mut Player) -> Known {
    let is_new = player.is_varied && player.random.percent(95);
    match is_new || player.known.is_empty() {
        true => new_equation(player),
        false => player.random.pick(&player.known),
    }
}

/// Keeps an equation to come back to, in the place of another where there are many.
fn remember(player: &mut Player, known: &Known) {
    if player.known.len() < MOST_KNOWN {
        player.known.push(known.clone());
    } else {
        let at = player.random.below(MOST_KNOWN);
        player.known[at] = known.clone();
    }
}

pub fn unlisted_number(random: &mut Random, catalogue: &Catalogue) -> u32 {
    let number = match random.below(20) {
        0 => random.pick(&[1, MOST_NUMBER as usize]),
        1..8 => random.between(1, 99),
        _ => random.between(1, MOST_NUMBER as usize),
    };
    let number = number as u32;
    match catalogue.is_listed(number) {
        true => unlisted_number(random, catalogue),
        false => number,
    }
}

pub fn listed_number(random: &mut Random, catalogue: &Catalogue) -> Option<u32> {
    let held = catalogue.held();
    (!held.is_empty()).then(|| random.pick(&held).number)
}
