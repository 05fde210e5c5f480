//! Jobs with several right sides, or with places for them, about the bounds of the refusals before the search.

use super::broken::{damage_some, malformed};
use super::draft::{Draft, mostly_find};
use super::plans;
use super::random::Random;
use super::refused::{add_reason, bound, spoil_side};
use super::terms::{holding, letters, shown, term, term_up_to};
use crate::Call;
use crate::plain::job::{MOST_BYTES, MOST_FIND_BYTES, MOST_LETTERS, MOST_RIGHTS};
use crate::plain::term::{Term, v_letters};

/// About sixteen right lines, or many more, one of them perhaps no term.
pub fn right_count(random: &mut Random) -> Call {
    let mut draft = plans::draft(random);
    let count = match random.below(4) {
        0 => random.between(18, 60),
        _ => random.around(MOST_RIGHTS) + random.below(2),
    };
    repeat_rights(random, &mut draft, count);
    if random.percent(30) {
        let side = random.below(draft.sides());
        spoil_side(random, &mut draft, side);
    }
    mostly_find(random, draft.bytes())
}

/// Writes right sides again, at any place among them, until there are so many.
fn repeat_rights(random: &mut Random, draft: &mut Draft, count: usize) {
    while draft.sides() <= count {
        let right = draft.0[random.between(1, draft.sides() - 1)].clone();
        draft.0.insert(random.between(1, draft.sides()), right);
    }
}

/// One right side that refuses the whole job, among good ones.
pub fn one_wrong(random: &mut Random) -> Call {
    let mut draft = plans::draft(random);
    let side = random.between(1, draft.sides() - 1);
    match random.below(7) {
        0 | 1 => draft.0[side] = draft.0[0].clone(),
        2 | 3 => come_before(random, &mut draft, side),
        4 => spoil_side(random, &mut draft, side),
        5 => {
            let pool = letters(random, 3);
            draft.0[side] = shown(&term(random, 33, &pool));
        }
        _ => {
            let left = left_of(&draft);
            draft.0[side] = shown(&beside(random, &left, MOST_LETTERS + 1));
        }
    }
    if random.percent(15) {
        let limit = random.below(4);
        bound(random, &mut draft, limit);
    }
    mostly_find(random, draft.bytes())
}

/// Makes a right side come before left.
fn come_before(random: &mut Random, draft: &mut Draft, side: usize) {
    let left = left_of(draft);
    let pool = letters(random, 3);
    for _ in 0..8 {
        let right = term_up_to(random, 7, &pool);
        if right < left {
            draft.0[side] = shown(&right);
            return;
        }
    }
    draft.0.swap(0, side);
}

fn left_of(draft: &Draft) -> Term {
    Term::read(&draft.0[0]).expect("a term")
}

/// A term that makes so many v letters together with left's, if left has no more.
fn beside(random: &mut Random, left: &Term, total: usize) -> Term {
    let mut both: Vec<u16> = left.letters().collect();
    both.sort_unstable();
    both.dedup();
    let held = random.below(both.len() + 1);
    let mut own = both[..held].to_vec();
    while v_letters(both.iter().copied()).len() < total {
        let letter = letters(random, 1)[0];
        if !both.contains(&letter) {
            both.push(letter);
            own.push(letter);
        }
    }
    holding(random, &own)
}

/// Six letters, or seven, in each equation; more in the whole job.
pub fn each_six(random: &mut Random) -> Call {
    let count = random.below(5);
    let pool = letters(random, count);
    let left = holding(random, &pool);
    let wanted = random.between(2, MOST_RIGHTS);
    let seven = random.percent(30).then(|| random.below(wanted));
    let mut rights = Vec::new();
    for _ in 0..6 * wanted {
        let total = match seven == Some(rights.len()) {
            true => MOST_LETTERS + 1,
            false => random.pick(&[MOST_LETTERS - 1, MOST_LETTERS, MOST_LETTERS]),
        };
        let right = beside(random, &left, total);
        if right > left && rights.len() < wanted {
            rights.push(right);
        }
    }
    if rights.len() < 2 {
        return each_six(random);
    }
    let draft = Draft::new(&left, &rights, [1, 11, 5, 10]);
    mostly_find(random, draft.bytes())
}

/// Two or three reasons to refuse at once, of which the first that is looked at counts.
pub fn faults(random: &mut Random) -> Call {
    let mut draft = plans::draft(random);
    for _ in 0..random.between(2, 3) {
        match random.below(8) {
            0 => {
                let count = random.around(MOST_RIGHTS + 1);
                repeat_rights(random, &mut draft, count);
            }
            1 | 2 => {
                let side = random.between(1, draft.sides() - 1);
                draft.0.swap(0, side);
            }
            _ => add_reason(random, &mut draft),
        }
    }
    mostly_find(random, draft.bytes())
}

/// Texts of well formed lines with about 1,024 or 4,096 bytes, or up to as many as a good job can have.
pub fn lengths(random: &mut Random) -> Call {
    let length = match random.below(5) {
        0 | 1 => random.around(MOST_BYTES) + random.below(2),
        2 => random.between(MOST_BYTES, 2_000),
        _ => random.around(MOST_FIND_BYTES) + random.below(2),
    };
    let count = match random.below(8) {
        0 => 1,
        1 => random.between(1, MOST_RIGHTS),
        2..6 => random.between(9, MOST_RIGHTS),
        _ => random.between(MOST_RIGHTS, 60),
    };
    let is_tight = random.percent(70);
    let left = Term::of(letters(random, 1));
    let pool = [(0, 9), (10, 99), (100, 999)];
    let pool = pool.map(|(least, most)| random.between(least, most));
    let mut draft = Draft::new(&left, [], [1, 11, 5, 10]);
    let keys = draft.bytes().len() + count * "right=\n".len();
    let mut rest = length - keys;
    for unwritten in (1..=count).rev() {
        let even = rest / unwritten;
        let taken = if unwritten == 1 {
            rest
        } else {
            random.around(even)
        };
        let side = of_length(random, taken, is_tight, &pool);
        draft.0.insert(1, side);
        rest -= taken;
    }
    if random.percent(20) {
        let limit = random.below(4);
        bound(random, &mut draft, limit);
    }
    mostly_find(random, draft.bytes())
}

/// The text of a term with so many bytes, over letters of one, two and three digits and 0; a tight one has
/// as few nodes as it can.
pub fn of_length(random: &mut Random, length: usize, is_tight: bool, pool: &[usize; 3]) -> Vec<u8> {
    // one atom more takes its one to four bytes, an operator's and two spaces
    let least = (length + 3).div_ceil(7);
    let most = if is_tight { least } else { length.div_ceil(4) };
    let count = random.between(least, most);
    let mut widths = vec![1; count];
    for _ in 0..length + 3 - 4 * count {
        let short: Vec<usize> = (0..count).filter(|&at| widths[at] < 4).collect();
        widths[random.pick(&short)] += 1;
    }
    let atoms = widths.iter().map(|&width| match width {
        1 => "0".to_owned(),
        _ => format!("v{}", pool[width - 2]),
    });
    let atoms: Vec<String> = atoms.collect();
    let operator = random.pick(&["+ ", "* "]);
    (operator.repeat(count - 1) + &atoms.join(" ")).into_bytes()
}

/// Right lines out of place, none at all, and malformed lines beside several right sides.
pub fn right_lines(random: &mut Random) -> Call {
    let draft = plans::draft(random);
    let sides = draft.sides();
    let mut lines = draft.lines();
    let right = random.between(1, sides - 1);
    let text = match random.below(8) {
        0 | 1 => {
            let moved = lines.remove(right);
            lines.insert(random.between(sides, lines.len()), moved);
            lines.concat()
        }
        2 => {
            lines.swap(0, right);
            lines.concat()
        }
        3 => {
            lines.drain(1..sides);
            lines.concat()
        }
        4 => {
            lines.insert(right, lines[0].clone());
            lines.concat()
        }
        _ => malformed(random, draft),
    };
    mostly_find(random, text)
}

/// A good text damaged.
pub fn damaged(random: &mut Random) -> Call {
    let mut text = plans::draft(random).bytes();
    damage_some(random, &mut text);
    mostly_find(random, text)
}
