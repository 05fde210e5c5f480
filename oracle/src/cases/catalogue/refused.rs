//! Lists of calls about refusals.

use super::super::{LIMITS, sum_of};
use super::{A, JOB, Play, play, put, put_as, put_text, withdraw, withdraw_text};
use crate::plain::catalogue::{MOST_NUMBER, PLACES};
use crate::plain::job;
use crate::{CATALOGUE, Sent};

pub fn plays() -> Vec<Play> {
    vec![
        refused_puts(),
        malformed_puts(),
        malformed_withdrawals(),
        ordered(),
        lengths(),
        other_buffers(),
    ]
}

/// A reason for each refusal of a job, and each limit at its bound.
#[rustfmt::skip]
fn refused_puts() -> Play {
    let seven = "+ v0 + v1 + v2 + v3 + v4 + v5 v6";
    let six = "+ v0 + v1 + v2 + v3 + v4 v5";
    let (sum_31, sum_33) = (sum_of("v0", 16), sum_of("v0", 17));
    let mut calls = Vec::new();
    for key in ["raw", "words"] {
        let limits = |limits: [&str; 4], due| put_as("1", key, A, limits, due);
        calls.extend([
            put(1, key, ["", "v0"], 2),
            put(1, key, ["v0", "v1000"], 2),
            put(1, key, ["v0", "v0 "], 2),
            put(1, key, [&sum_33, "v0"], 3),
            put(1, key, ["v0", &sum_33], 3),
            put(1, key, [seven, "0"], 4),
            put(1, key, [six, "v6"], 4),
            limits(["17", "0", "0", "0"], 5),
            limits(["0", "32", "0", "0"], 5),
            limits(["0", "0", "16", "0"], 5),
            limits(["0", "0", "0", "4097"], 5),
            limits(["4294967296", "0", "0", "0"], 5),
            put(1, key, [six, six], 6),
            limits(["16", "31", "15", "4096"], 101),
            withdraw(1, 100),
            put(1, key, [&sum_31, six], 101),
            withdraw(1, 100),
        ]);
    }
    play("refusals of a put's job", calls)
}

#[rustfmt::skip]
fn malformed_puts() -> Play {
    let whole = format!("number=7\nkey=raw\n{JOB}");
    let texts = [
        "".to_owned(),
        JOB.to_owned(),
        "number=7\n".to_owned(),
        "number=7\nkey=raw\n".to_owned(),
        format!("key=raw\n{JOB}"),
        format!("key=raw\nnumber=7\n{JOB}"),
        format!("{JOB}number=7\nkey=raw\n"),
        format!("number=7\n{JOB}key=raw\n"),
        format!("number=7\nnumber=7\nkey=raw\n{JOB}"),
        format!("number=7\nkey=raw\nkey=raw\n{JOB}"),
        format!("{whole}\n"),
        format!("{whole}x"),
        format!("{whole}{whole}"),
        format!("\n{whole}"),
        format!(" {whole}"),
        whole.trim_end().to_owned(),
        whole.replace('\n', "\r\n"),
        whole.replace("number=", "Number="),
        whole.replace("number=", "number= "),
        whole.replace("number=", "number"),
        whole.replace("key=", "Key="),
        whole.replace("key=", "key= "),
        whole.replace("left=", "right="),
        whole.replace("steps=3", "steps=03"),
        whole.replace("right=+ v0 0\n", "right=+ v0 0\nright=v1\n"),
    ];
    let numbers = ["", "0", "00", "01", "007", "1000", "9999", "65537", "4294967297", "18446744073709551617",
        " 7", "7 ", "+7", "-7", "7.0", "0x7", "7\0", "v7"];
    let keys = ["", "Raw", "RAW", "ra", "raws", "rawwords", "word", "Words", "wordss", " raw", "raw ", "words\r", "0", "sets"];
    let calls = texts.iter().map(|text| put_text(text, 1));
    let numbers = numbers.iter().map(|number| put_as(number, "words", A, LIMITS, 1));
    let keys = keys.iter().map(|key| put(7, key, A, 1));
    play("malformed puts", calls.chain(numbers).chain(keys).collect())
}

/// The one entry stays through all of them.
#[rustfmt::skip]
fn malformed_withdrawals() -> Play {
    let texts = ["", "\n", "7\n", "number=7", "number=7\n\n", "number=7\n ", "number=7\nx", "\nnumber=7\n",
        " number=7\n", "number= 7\n", "number=7 \n", "number=7\r\n", "number=07\n", "number=\n", "number=0\n",
        "number=1000\n", "number=4294967303\n", "number=18446744073709551623\n", "number=-7\n", "number=+7\n",
        "Number=7\n", "number:7\n", "number=7\nnumber=7\n", "number=7\nkey=raw\n", "key=raw\n", "left=v0\n"];
    let mut calls = vec![put(7, "raw", A, 101)];
    calls.extend(texts.iter().map(|text| withdraw_text(text, 1)));
    calls.push(withdraw_text(&format!("number=7\nkey=raw\n{JOB}"), 1));
    calls.extend([withdraw(MOST_NUMBER as usize, 14), withdraw(1, 14), withdraw(7, 100)]);
    play("malformed withdrawals", calls)
}

/// A put with every reason to refuse, which are then taken away one by one.
#[rustfmt::skip]
fn ordered() -> Play {
    let (seven, sum_33) = ("+ v1 + v2 + v3 + v4 + v5 + v6 v7", sum_of("v0", 17));
    let mut calls: Vec<_> = (1..=PLACES).map(|number| put(number, "raw", A, 101)).collect();
    let over = ["17", "7", "3", "1000"];
    calls.extend([
        put_as("0", "raw", ["+ v0", &sum_33], over, 1),
        put_as("1", "Raw", ["+ v0", &sum_33], over, 1),
        put_as("1", "raw", ["+ v0", &sum_33], ["017", "7", "3", "1000"], 1),
        put_as("1", "raw", ["+ v0", &sum_33], over, 2),
        put_as("1", "raw", [seven, &sum_33], over, 3),
        put_as("1", "raw", [seven, seven], over, 4),
        put_as("1", "raw", ["v0", "v0"], over, 5),
        put(1, "raw", ["v0", "v0"], 6),
        put(1, "raw", A, 13),
        put(65, "raw", A, 15),
    ]);
    calls.extend((2..=PLACES).map(|number| withdraw(number, 101)));
    calls.push(withdraw(1, 100));
    play("refusals in order", calls)
}

/// Texts of well formed lines with 1,023 bytes and more.
fn lengths() -> Play {
    let mut calls = Vec::new();
    let head = "number=7\nkey=words\n";
    for length in [1_023, 1_024, 1_025, 1_026, 1_100] {
        let missing = length - head.len() - JOB.len() + "v0".len();
        let due = if length <= job::MOST_BYTES { 2 } else { 1 };
        let text = format!("{head}{JOB}").replacen("v0", &"0".repeat(missing), 1);
        calls.push(put_text(&text, due));
        let number = format!("{}7", "0".repeat(length - "number=7\n".len()));
        calls.push(withdraw_text(&format!("number={number}\n"), 1));
    }
    let sum = format!("{}v123", "+ 1 ".repeat(237));
    let longest = format!("{head}{JOB}").replacen("v0", &sum, 1);
    assert_eq!(longest.len(), job::MOST_BYTES);
    calls.push(put_text(&longest, 3));
    calls.push(put_text(&longest.replace("v123", "v12"), 3));
    calls.push(put_text(&longest.replace("steps=3", "steps=16"), 1));
    play("lengths of texts", calls)
}

/// A buffer of another length, whatever the text is.
fn other_buffers() -> Play {
    let good = [put(7, "raw", A, 101), withdraw(7, 100)];
    let texts = [
        put(7, "raw", A, 99),
        put(8, "raw", A, 99),
        put(0, "Raw", ["+ v0", "v0"], 99),
        withdraw(7, 99),
        withdraw(8, 99),
        withdraw_text("", 99),
    ];
    let mut calls = vec![good[0].clone()];
    for numbers in [0, 1, CATALOGUE - 1, CATALOGUE + 1, 2 * CATALOGUE] {
        for (sent, due) in &texts {
            let sent = Sent {
                numbers,
                ..sent.clone()
            };
            calls.push((sent, *due));
        }
    }
    calls.push(good[1].clone());
    play("other buffers", calls)
}
