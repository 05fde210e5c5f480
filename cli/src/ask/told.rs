//! What a text gave: what is printed of it, and what is said to people.

use crate::failure::Status;
use crate::streams::Source;

pub struct Told {
    pub status: Status,
    /// For standard output: the answer, or a refusal's two lines.
    pub printed: Vec<u8>,
    /// For standard error, line by line.
    pub said: Vec<String>,
}

impl Told {
    /// Of a job that broke down.
    pub fn lost(job: &Source) -> Told {
        let why = "this job broke down and is not answered; the others are";
        Told::failed(format!("{}: {why}", job.name()))
    }

    /// Of an answer of which nothing is said.
    pub fn answered(answer: &[u8]) -> Told {
        Told {
            status: Status::Answered,
            printed: answer.to_vec(),
            said: Vec::new(),
        }
    }

    /// Of a refusal.
    pub fn refused(number: usize, said: Vec<String>) -> Told {
        Told {
            status: Status::Refused,
            printed: format!("answer=refused\nnumber={number}\n").into_bytes(),
            said,
        }
    }

    /// Of a text that could not be read.
    pub fn failed(why: String) -> Told {
        Told {
            status: Status::Failed,
            printed: Vec::new(),
            said: vec![why],
        }
    }
}
