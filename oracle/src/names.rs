//! Three calls of RENAME, on two equations and on what it makes of the first, held to what a shared name means
//! (document 02, wish 6).

use crate::generate::Pair;
use crate::plain::{
    alike::{self, Alike},
    job::{Job, line},
    term::Term,
    words::{Word, words},
};
use crate::{Call, Entry, Given, PROGRAM_ROOM, checked};

/// What the judge says of two equations.
pub struct Related {
    pub sides: Alike,
    pub lists: Alike,
    /// Whether the words of the first one's sides agree, and those of the other's.
    pub agree: [bool; 2],
}

/// Puts both equations of the pair to RENAME, then the job made of the first two lines printed. Each call is made by
/// `make`, which says what it gives. Gives how the two are related, or what does not hold.
pub fn hold(
    pair: &Pair,
    mut make: impl FnMut(&Call) -> Result<Given, String>,
) -> Result<Related, String> {
    let [one, other] = pair.jobs();
    let one = Named::new(one, &mut make)?;
    let other = Named::new(other, &mut make)?;
    let related = relate(&one, &other)?;
    let [left, right, ..] = &one.values;
    let third = Named::new(pair.third_job([left, right]), &mut make)?;
    let is_kept = one.values == third.values;
    let sentence = "the job made of `left` and `right` gives the same four lines";
    first_broken(&one, &third, &[(is_kept, sentence)])?;
    relate(&one, &third)?;
    Ok(related)
}

/// An equation, and what RENAME prints of it.
struct Named {
    job: Vec<u8>,
    sides: [Term; 2],
    lists: [Vec<Word>; 2],
    /// What stands in the lines `left`, `right`, `wleft` and `wright`.
    values: [String; 4],
}

impl Named {
    fn new(
        job: Vec<u8>,
        make: &mut impl FnMut(&Call) -> Result<Given, String>,
    ) -> Result<Named, String> {
        let call = Call {
            entry: Entry::Rename,
            slots: 0,
            room: PROGRAM_ROOM,
            job,
        };
        let given = make(&call)?;
        let equations = Job::read(Entry::Rename, &call.job).map(|job| job.equations);
        let values = given.as_deref().ok().and_then(values);
        let (Ok([equation]), Some(values)) = (equations.as_deref(), values) else {
            let (job, given) = (String::from_utf8_lossy(&call.job), checked::show(&given));
            return Err(format!(
                "difference: the job is answered by four lines\n--- job\n{job}--- answer\n{given}"
            ));
        };
        let sides = [&equation.left, &equation.right];
        Ok(Named {
            sides: sides.map(Term::clone),
            lists: sides.map(words),
            values,
            job: call.job,
        })
    }

    fn agrees(&self) -> bool {
        self.lists[0] == self.lists[1]
    }

    /// Whether the last two lines say that the words agree exactly if they do.
    fn says_whether_words_agree(&self) -> bool {
        let [.., left, right] = &self.values;
        [left, right].map(|value| value == "-") == [self.agrees(); 2]
    }

    fn show(&self) -> String {
        let job = String::from_utf8_lossy(&self.job);
        let values = self.values.join("\n");
        format!("--- job\n{job}--- its four lines\n{values}\n")
    }
}

/// What stands in the four lines of an answer.
fn values(answer: &[u8]) -> Option<[String; 4]> {
    let mut rest = answer;
    let mut value = |key| {
        let value = line(&mut rest, key)?;
        String::from_utf8(value.to_vec()).ok()
    };
    let values = [
        value("left=")?,
        value("right=")?,
        value("wleft=")?,
        value("wright=")?,
    ];
    rest.is_empty().then_some(values)
}

/// How two equations are related; or what does not hold of the lines printed.
fn relate(one: &Named, other: &Named) -> Result<Related, String> {
    let sides = alike::terms(&one.sides, &other.sides);
    let lists = alike::lists(&one.lists, &other.lists);
    let agree = [one.agrees(), other.agrees()];
    let has_same_sides = one.values[..2] == other.values[..2];
    let has_same_lists = one.values[2..] == other.values[2..];
    let sentences = [
        (
            has_same_sides == sides.either(),
            "`left` and `right` are the same exactly if a renaming makes the one equation of the other",
        ),
        (
            one.says_whether_words_agree() && other.says_whether_words_agree(),
            "`wleft` and `wright` are both `-` exactly if the words agree",
        ),
        (
            agree == [true; 2] || has_same_lists == lists.either(),
            "`wleft` and `wright` are the same exactly if a renaming makes the one's lists of the other's",
        ),
        (
            !has_same_sides || has_same_lists,
            "all four lines are the same where `left` and `right` are",
        ),
    ];
    first_broken(one, other, &sentences)?;
    Ok(Related {
        sides,
        lists,
        agree,
    })
}

/// Says which of these sentences is the first that does not hold.
fn first_broken(one: &Named, other: &Named, sentences: &[(bool, &str)]) -> Result<(), String> {
    let Some((_, what)) = sentences.iter().find(|(holds, _)| !holds) else {
        return Ok(());
    };
    let (one, other) = (one.show(), other.show());
    Err(format!(
        "difference: it does not hold that {what}\n{one}{other}"
    ))
}
