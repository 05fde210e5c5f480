//! Points of the fifth wish of document 02, the catalogue, that are left to be read.

mod kinds;
mod places;
mod plays;
mod read;
mod stored;

use oracle::checked::Judged;
use oracle::plain::catalogue::returned;
use oracle::plain::job;
use oracle::{Ask, Sent};

const A: [&str; 2] = ["v0", "+ v0 0"];
const LIMITS: [&str; 4] = ["3", "7", "3", "1000"];

/// The text of a put.
fn text(number: &str, key: &str, [left, right]: [&str; 2], limits: [&str; 4]) -> Vec<u8> {
    let [steps, size, depth, nodes] = limits;
    let head = format!("number={number}\nkey={key}\n");
    let job = job::write(&[left, right, steps, size, depth, nodes]);
    [head.as_bytes(), &job].concat()
}

/// What a call returns, on which plain and the Rust agree.
fn call(judged: &mut Judged, sent: &Sent) -> usize {
    let kept = judged.call(sent).unwrap_or_else(|found| panic!("{found}"));
    returned(&kept)
}

fn put(judged: &mut Judged, text: &[u8]) -> usize {
    call(judged, &Sent::new(Ask::Put, text))
}

fn withdraw(judged: &mut Judged, text: &[u8]) -> usize {
    call(judged, &Sent::new(Ask::Withdraw, text))
}

/// A good put, and a withdrawal, by number.
fn put_as(judged: &mut Judged, number: usize, key: &str, sides: [&str; 2]) -> usize {
    put(judged, &text(&number.to_string(), key, sides, LIMITS))
}

fn take_out(judged: &mut Judged, number: usize) -> usize {
    withdraw(judged, format!("number={number}\n").as_bytes())
}
