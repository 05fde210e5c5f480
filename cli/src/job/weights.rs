//! The last line of a job of WEIGH: a weight for each law, in law order.

use super::value_of;
use crate::failure::brief;
use crate::law::LAWS;
use crate::whole::is_number;

pub const KEY: &str = "weights";

/// The least and the most that a law may weigh.
const LEAST: usize = 1;
const MOST: usize = 9;

/// Whether it is a number for each law, parted by one space.
pub fn are_numbers(value: &[u8]) -> bool {
    pieces(value).count() == LAWS.len() && pieces(value).all(is_number)
}

/// The first law whose number is no weight, as `10 for left_distrib`.
pub fn in_range(value: &[u8]) -> Option<String> {
    let mut given = pieces(value).zip(&LAWS);
    let is_weight = |digits| (LEAST..=MOST).contains(&value_of(digits));
    let (digits, law) = given.find(|(digits, _)| !is_weight(digits))?;
    let digits = brief(&String::from_utf8_lossy(digits));
    Some(format!("{digits} for {}", law.name))
}

fn pieces(value: &[u8]) -> impl Iterator<Item = &[u8]> {
    value.split(|&byte| byte == b' ')
}
