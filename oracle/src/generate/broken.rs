//! Texts whose lines are malformed, and good texts damaged at random.

use super::draft::{Draft, any};
use super::random::Random;
use super::searched;
use crate::Call;
use crate::plain::job::MOST_BYTES;

/// Digits of a limit that are malformed.
const NO_NUMBERS: [&[u8]; 15] = [
    b"", b"00", b"03", b"007", b" 3", b"3 ", b"+3", b"-1", b"3.0", b"0x3", b"3\r", b"3\t", b"1e3",
    b"3\0", b"v3",
];

/// One fault of the lines, the keys or a limit's digits.
pub fn lines(random: &mut Random) -> Call {
    let draft = searched::draft(random);
    let text = malformed(random, draft);
    any(random, text)
}

/// The job with one such fault.
pub fn malformed(random: &mut Random, draft: Draft) -> Vec<u8> {
    match random.below(5) {
        0 => bad_digits(random, draft),
        1 => bad_key(random, draft.lines()),
        2 => bad_length(random, draft),
        3 => bad_ends(random, &draft.bytes()),
        _ => bad_order(random, draft.lines()),
    }
}

fn bad_digits(random: &mut Random, mut draft: Draft) -> Vec<u8> {
    *draft.limit(random.below(4)) = random.pick(&NO_NUMBERS).to_vec();
    draft.bytes()
}

/// One of the lines has another key.
pub fn bad_key(random: &mut Random, mut lines: Vec<Vec<u8>>) -> Vec<u8> {
    let at = random.below(lines.len());
    let key_end = lines[at].iter().position(|&byte| byte == b'=');
    let key_length = key_end.expect("a key ends") + 1;
    let in_key = random.below(key_length);
    let line = &mut lines[at];
    match random.below(6) {
        0 => line[in_key] ^= 0x20,
        1 => {
            line.remove(in_key);
        }
        2 => line.insert(0, b' '),
        3 => line.splice(..0, *b"\xef\xbb\xbf").for_each(drop),
        4 => line.insert(key_length - 1, b' '),
        _ => line.insert(key_length, b' '),
    }
    lines.concat()
}

/// Texts of 1,023 bytes and more.
fn bad_length(random: &mut Random, mut draft: Draft) -> Vec<u8> {
    let missing = MOST_BYTES - draft.bytes().len().min(MOST_BYTES);
    let added = match random.below(8) {
        0 => 65_836,
        1 => missing + random.below(200),
        _ => random.around(missing),
    };
    let at = random.below(draft.0.len());
    let filling = random.pick(&[&b" v0"[..], b"0", b"+ ", b"9"]);
    let filled = filling.iter().cycle().take(added);
    draft.0[at].extend(filled);
    draft.bytes()
}

/// The text ends otherwise, is missing or stands twice, or its lines end otherwise.
pub fn bad_ends(random: &mut Random, text: &[u8]) -> Vec<u8> {
    let (last, head) = text.split_last().expect("a job has bytes");
    match random.below(8) {
        0 => Vec::new(),
        1 => head.to_vec(),
        2 => [text, b"\n"].concat(),
        3 => [text, &[random.byte()]].concat(),
        4 => text.repeat(2),
        5 => [b"\n", text].concat(),
        6 => [head, b"\r", &[*last]].concat(),
        _ => text
            .split(|&byte| byte == b'\n')
            .collect::<Vec<_>>()
            .join(&b"\r\n"[..]),
    }
}

/// Two lines are exchanged, or one stands twice or is missing.
pub fn bad_order(random: &mut Random, mut lines: Vec<Vec<u8>>) -> Vec<u8> {
    let (one, other) = (random.below(lines.len()), random.below(lines.len()));
    match random.below(4) {
        0 | 1 => lines.swap(one, other),
        2 => lines.insert(other, lines[one].clone()),
        _ => {
            lines.remove(one);
        }
    }
    lines.concat()
}

/// A good text damaged.
pub fn damaged(random: &mut Random) -> Call {
    let mut text = searched::draft(random).bytes();
    damage_some(random, &mut text);
    any(random, text)
}

/// One to three bytes or stretches changed.
pub fn damage_some(random: &mut Random, text: &mut Vec<u8>) {
    for _ in 0..random.pick(&[1, 1, 2, 3]) {
        if random.percent(40) {
            exchange_digit(random, text);
        } else {
            damage(random, text);
        }
    }
}

/// Another digit where a digit stands, which often leaves a good text.
fn exchange_digit(random: &mut Random, text: &mut [u8]) {
    let digits = (0..text.len()).filter(|&at| text[at].is_ascii_digit());
    let digits: Vec<usize> = digits.collect();
    if !digits.is_empty() {
        text[random.pick(&digits)] = random.pick(b"0123456789");
    }
}

/// A byte that texts have.
fn usual(random: &mut Random) -> u8 {
    match random.has_c() {
        true => random.pick(b"+*vc01 29\n"),
        false => random.pick(b"+*v01 29\n"),
    }
}

fn damage(random: &mut Random, text: &mut Vec<u8>) {
    if text.is_empty() {
        return;
    }
    let at = random.below(text.len());
    let end = (at + random.between(1, 8)).min(text.len());
    match random.below(9) {
        0 => text[at] ^= 1 << random.below(8),
        1 => text[at] = random.byte(),
        2 => text[at] = usual(random),
        3 => {
            text.remove(at);
        }
        4 => text.insert(at, random.byte()),
        5 => text.insert(at, usual(random)),
        6 => {
            let stretch = text[at..end].to_vec();
            text.splice(at..at, stretch);
        }
        7 => text.swap(at, end - 1),
        _ => text.truncate(at),
    }
}
