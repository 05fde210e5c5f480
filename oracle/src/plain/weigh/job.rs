//! The lines of a job of WEIGH, and the refusals that come before its search.

use std::ops::RangeInclusive;

use crate::plain::job::{
    BOUNDS, Equation, Limits, MOST_BYTES, are_above, compared, line, measured, number,
};
use crate::plain::law::LAWS;
use crate::plain::term::Term;

pub const KEYS: [&str; 7] = [
    "left=", "right=", "cost=", "size=", "depth=", "nodes=", "weights=",
];
pub const MOST_COST: u32 = 99;
pub const WEIGHT: RangeInclusive<u32> = 1..=9;

/// A weight for each law, in law order.
pub type Weights = [usize; LAWS.len()];

/// A job that passed every refusal before 7.
#[derive(Clone, Debug)]
pub struct WeighJob {
    pub equation: Equation,
    pub cost: usize,
    /// The steps are not limited; they stand at 0.
    pub limits: Limits,
    pub weights: Weights,
}

impl WeighJob {
    /// Reads a job, or gives the first refusal that applies, looked at in the order 1 to 5, 16, 6.
    pub fn read(text: &[u8]) -> Result<WeighJob, u8> {
        let lines = Lines::read(text).ok_or(1)?;
        let left = Term::read(lines.left).ok_or(2)?;
        let right = Term::read(lines.right).ok_or(2)?;
        let rights = std::slice::from_ref(&right);
        let refused = measured(&left, rights)
            .or_else(|| are_above(&lines.limits, &BOUNDS[1..]).then_some(5))
            .or_else(|| lines.weighs_wrong().then_some(16))
            .or_else(|| compared(&left, rights));
        refused.map_or(Ok(()), Err)?;
        let [size, depth, nodes] = lines.limits.map(|value| value as usize);
        Ok(WeighJob {
            equation: Equation { left, right },
            cost: lines.cost as usize,
            limits: Limits {
                steps: 0,
                size,
                depth,
                nodes,
            },
            weights: lines.weights.map(|weight| weight as usize),
        })
    }
}

/// What stands after the key in each line, the numbers read.
struct Lines<'a> {
    left: &'a [u8],
    right: &'a [u8],
    cost: u32,
    limits: [u32; 3],
    weights: [u32; LAWS.len()],
}

impl<'a> Lines<'a> {
    /// The seven lines of a text that is well formed.
    fn read(text: &'a [u8]) -> Option<Lines<'a>> {
        if text.len() > MOST_BYTES {
            return None;
        }
        let [left, right, cost, size, depth, nodes, weights] = KEYS;
        let mut rest = text;
        let lines = Lines {
            left: line(&mut rest, left)?,
            right: line(&mut rest, right)?,
            cost: number(line(&mut rest, cost)?)?,
            limits: [
                number(line(&mut rest, size)?)?,
                number(line(&mut rest, depth)?)?,
                number(line(&mut rest, nodes)?)?,
            ],
            weights: numbers(line(&mut rest, weights)?)?,
        };
        rest.is_empty().then_some(lines)
    }

    /// Whether cost or a weight is out of its range.
    fn weighs_wrong(&self) -> bool {
        let is_weight = |weight| WEIGHT.contains(weight);
        self.cost > MOST_COST || !self.weights.iter().all(is_weight)
    }
}

/// As many numbers as there are laws, parted by one space.
fn numbers(value: &[u8]) -> Option<[u32; LAWS.len()]> {
    let numbers: Option<Vec<u32>> = value.split(|&byte| byte == b' ').map(number).collect();
    numbers?.try_into().ok()
}

/// The text of lines with these values after their keys.
pub fn write<V: AsRef<[u8]>>(values: &[V; KEYS.len()]) -> Vec<u8> {
    let lines = KEYS.iter().zip(values);
    let lines = lines.map(|(key, value)| [key.as_bytes(), value.as_ref(), b"\n"].concat());
    lines.collect::<Vec<_>>().concat()
}
