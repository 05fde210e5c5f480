//! The buffers of a call, kept from one call to the next: no answer depends on what an earlier call left in them.

use crate::{ANSWER, Entry, MOST_ROOM, MOST_SLOTS, SLOT};

/// What a call gives: the answer's bytes, or the number of the refusal.
pub type Asked<'a> = Result<&'a [u8], usize>;

/// How many bytes an answer may have.
#[derive(Clone, Copy, Debug, Eq, PartialEq)]
pub enum Room {
    /// As many as it needs.
    Grows,
    /// So many, and at most `MOST_ROOM`: a longer one is refused by 8.
    Bytes(usize),
}

/// Where a growing output begins, and how many times longer it becomes: each time the whole call is made again, so it grows twice at most.
const FIRST_ROOM: usize = 1 << 15;
const GROWTH: usize = 1 << 5;

/// The refusal of an answer that is longer than the output.
const TOO_LONG: usize = 8;

pub struct Buffers {
    output: Vec<u8>,
    workspace: Vec<u32>,
    room: Room,
}

impl Buffers {
    /// Buffers for calls with so many slots, of which at most `MOST_SLOTS` are used, and so much room.
    pub fn new(slots: usize, room: Room) -> Buffers {
        let bytes = match room {
            Room::Grows => FIRST_ROOM,
            Room::Bytes(bytes) => bytes.min(MOST_ROOM),
        };
        Buffers {
            output: vec![0; bytes],
            workspace: vec![0; slots.min(MOST_SLOTS) * SLOT],
            room,
        }
    }

    /// Asks the entry; an output that may grow is made larger until the answer fits.
    pub fn ask(&mut self, entry: Entry, job: &[u8]) -> Asked<'_> {
        let mut number = entry.call(job, &mut self.output, &mut self.workspace);
        while number == TOO_LONG && self.grow() {
            number = entry.call(job, &mut self.output, &mut self.workspace);
        }
        match number.checked_sub(ANSWER) {
            Some(length) => Ok(&self.output[..length]),
            None => Err(number),
        }
    }

    /// Makes the output longer, if it may grow; says whether it did.
    fn grow(&mut self) -> bool {
        let grows = self.room == Room::Grows && self.output.len() < MOST_ROOM;
        if grows {
            self.output.resize(GROWTH * self.output.len(), 0);
        }
        grows
    }
}

#[cfg(test)]
mod tests {
    use super::*;

    const CASE_A: &[u8] = include_bytes!("../../examples/case-a.job");
    const CASE_A_ANSWER: &[u8] = include_bytes!("../../examples/case-a.answer");

    /// A derivation of three lines.
    const DERIVATION: &[u8] = include_bytes!("../../docs/guide/archive.derivation");
    const GOOD: &[u8] = b"answer=good\n";

    /// A job of WEIGH.
    const WEIGHING: &[u8] = include_bytes!("../../docs/guide/no-returns.weighing");

    /// Searches that note more than 400 terms, of FIND and of WEIGH.
    const WIDE: &[u8] = include_bytes!("../../docs/guide/refused-7.job");
    const WIDE_WEIGHING: &[u8] = include_bytes!("../../docs/guide/by-stock-wide.weighing");

    /// A proof that is longer than the first output.
    const LONG: &[u8] = include_bytes!("../../docs/guide/refused-8.job");
    const LONG_LENGTH: usize = 39_465;

    #[test]
    fn case_a_is_answered_as_it_is_stored() {
        let mut buffers = Buffers::new(400, Room::Grows);
        assert_eq!(buffers.ask(Entry::Find, CASE_A), Ok(CASE_A_ANSWER));
    }

    #[test]
    fn each_entry_answers_as_the_guide_has_it() {
        let job = include_bytes!("../../docs/guide/archive.job");
        let mut buffers = Buffers::new(400, Room::Grows);
        let mut ask = |entry| buffers.ask(entry, job).map(<[u8]>::to_vec).unwrap();
        let find = include_bytes!("../../docs/guide/archive.answer");
        let words = include_bytes!("../../docs/guide/archive.words");
        let rename = include_bytes!("../../docs/guide/archive.rename");
        let same = include_bytes!("../../docs/guide/archive.same");
        assert_eq!(ask(Entry::Find), find);
        assert_eq!(ask(Entry::Words), words);
        assert_eq!(ask(Entry::Rename), rename);
        assert_eq!(ask(Entry::Same), same);
        assert_eq!(buffers.ask(Entry::Check, DERIVATION), Ok(GOOD));
        assert_eq!(buffers.ask(Entry::Check, job), Err(1));
        let weigh = include_bytes!("../../docs/guide/no-returns.weigh");
        assert_eq!(buffers.ask(Entry::Weigh, WEIGHING), Ok(&weigh[..]));
        assert_eq!(buffers.ask(Entry::Weigh, job), Err(1));
    }

    #[test]
    fn an_output_grows_until_the_answer_fits() {
        let mut buffers = Buffers::new(MOST_SLOTS, Room::Grows);
        assert!(buffers.output.len() < LONG_LENGTH);
        let answer = buffers.ask(Entry::Find, LONG).unwrap();
        assert_eq!(answer.len(), LONG_LENGTH);
        assert!(answer.starts_with(b"answer=proved\n"));
        assert!(answer.ends_with(b"\n"));
    }

    #[test]
    fn a_growing_output_ends_at_the_most() {
        let mut buffers = Buffers::new(0, Room::Grows);
        while buffers.grow() {}
        assert_eq!(buffers.output.len(), MOST_ROOM);
    }

    /// The blocks of all right sides count together.
    #[test]
    fn an_output_grows_until_all_blocks_fit() {
        let right = str::from_utf8(LONG).unwrap().lines().nth(1).unwrap();
        let job = str::from_utf8(LONG).unwrap();
        let job = job.replacen(right, &[right; 16].join("\n"), 1);
        let ask = |room| {
            let mut buffers = Buffers::new(MOST_SLOTS, room);
            buffers.ask(Entry::Find, job.as_bytes()).map(<[u8]>::to_vec)
        };
        let one = Buffers::new(MOST_SLOTS, Room::Grows)
            .ask(Entry::Find, LONG)
            .map(<[u8]>::to_vec);
        let all = one.unwrap().repeat(16);
        assert!(ask(Room::Grows).unwrap() == all);
        assert!(ask(Room::Bytes(all.len())).unwrap() == all);
        assert!(ask(Room::Bytes(all.len() - 1)) == Err(TOO_LONG));
    }

    #[test]
    fn fixed_room_refuses_what_is_longer_by_8() {
        let ask = |bytes| {
            let mut buffers = Buffers::new(MOST_SLOTS, Room::Bytes(bytes));
            buffers.ask(Entry::Find, LONG).map(<[u8]>::len)
        };
        assert_eq!(ask(32_768), Err(8));
        assert_eq!(ask(LONG_LENGTH - 1), Err(8));
        assert_eq!(ask(LONG_LENGTH), Ok(LONG_LENGTH));
    }

    #[test]
    fn a_good_derivation_needs_twelve_bytes_and_no_slot() {
        let ask = |bytes| {
            let mut buffers = Buffers::new(0, Room::Bytes(bytes));
            buffers.ask(Entry::Check, DERIVATION).map(<[u8]>::to_vec)
        };
        assert_eq!(ask(GOOD.len() - 1), Err(TOO_LONG));
        assert_eq!(ask(GOOD.len()), Ok(GOOD.to_vec()));
    }

    #[test]
    fn few_slots_refuse_a_wide_search_by_7_and_more_answer_it() {
        let few = &mut Buffers::new(400, Room::Grows);
        let most = &mut Buffers::new(MOST_SLOTS, Room::Grows);
        for (entry, job) in [(Entry::Find, WIDE), (Entry::Weigh, WIDE_WEIGHING)] {
            assert_eq!(few.ask(entry, job), Err(7));
            let answer = most.ask(entry, job).unwrap();
            assert!(answer.starts_with(b"answer=proved\n"));
        }
    }

    #[test]
    fn the_same_buffers_answer_the_same_after_other_calls() {
        let texts = [
            CASE_A,
            WIDE,
            LONG,
            DERIVATION,
            WEIGHING,
            WIDE_WEIGHING,
            b"left=v0\n",
        ];
        let calls = Entry::ALL.map(|entry| texts.map(|text| (entry, text)));
        let calls = calls.as_flattened();
        let fresh = calls.iter().map(|&(entry, job)| {
            let mut buffers = Buffers::new(MOST_SLOTS, Room::Grows);
            buffers.ask(entry, job).map(<[u8]>::to_vec)
        });
        let fresh: Vec<_> = fresh.collect();
        let mut kept = Buffers::new(MOST_SLOTS, Room::Grows);
        for _ in 0..2 {
            for (&(entry, job), due) in calls.iter().zip(&fresh) {
                let answer = kept.ask(entry, job).map(<[u8]>::to_vec);
                assert_eq!(&answer, due, "{}", entry.name());
            }
        }
    }

    #[test]
    fn buffers_of_no_length_are_lent_too() {
        let mut none = Buffers::new(0, Room::Bytes(0));
        for entry in Entry::ALL {
            let text = match entry {
                Entry::Find | Entry::Words | Entry::Rename | Entry::Same => CASE_A,
                Entry::Check => DERIVATION,
                Entry::Weigh => WEIGHING,
            };
            let due = match entry {
                Entry::Weigh => 7,
                _ => TOO_LONG,
            };
            assert_eq!(none.ask(entry, b""), Err(1));
            assert_eq!(none.ask(entry, text), Err(due));
        }
        assert_eq!(none.ask(Entry::Find, WIDE), Err(7));
    }

    #[test]
    fn more_slots_and_room_than_are_used_are_cut() {
        let mut buffers = Buffers::new(usize::MAX, Room::Bytes(usize::MAX));
        assert_eq!(buffers.workspace.len(), MOST_SLOTS * SLOT);
        assert_eq!(buffers.output.len(), MOST_ROOM);
        assert_eq!(buffers.ask(Entry::Find, CASE_A), Ok(CASE_A_ANSWER));
    }
}
