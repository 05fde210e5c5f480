//! The kinds of calls, with their shares and makers.

use super::random::Random;
use super::{
    bent, broken, chains, cuts, far, hand, listed, measured, most, parted, plans, refused, same,
    searched, spoilt, unread, unweighed, weigh,
};
use crate::{About, Call};

/// A kind of call, its share in a mixed list, and what it is.
pub struct Kind {
    pub name: &'static str,
    pub about: About,
    /// Whether it draws c letters.
    pub has_c: bool,
    pub share: usize,
    pub what: &'static str,
    pub(super) make: Make,
}

impl Kind {
    /// Whether its calls take seconds.
    pub fn is_heavy(&self) -> bool {
        HEAVY.contains(&self.name)
    }
}

const HEAVY: [&str; 3] = ["heavy", "plan-heavy", "weigh-heavy"];

pub(super) type Make = fn(&mut Random) -> Call;

const fn one(name: &'static str, share: usize, what: &'static str, make: Make) -> Kind {
    Kind {
        name,
        about: About::One,
        has_c: false,
        share,
        what,
        make,
    }
}

const fn many(name: &'static str, share: usize, what: &'static str, make: Make) -> Kind {
    Kind {
        about: About::Many,
        ..one(name, share, what, make)
    }
}

const fn check(name: &'static str, share: usize, what: &'static str, make: Make) -> Kind {
    Kind {
        about: About::Check,
        ..one(name, share, what, make)
    }
}

/// A kind that draws c letters, with one right side, with several or for CHECK.
const fn fixed(name: &'static str, share: usize, what: &'static str, make: Make) -> Kind {
    Kind {
        about: About::Fixed,
        has_c: true,
        ..one(name, share, what, make)
    }
}

const fn same(name: &'static str, share: usize, what: &'static str, make: Make) -> Kind {
    Kind {
        about: About::Same,
        ..one(name, share, what, make)
    }
}

/// A kind for SAME that draws c letters.
const fn same_c(name: &'static str, share: usize, what: &'static str, make: Make) -> Kind {
    Kind {
        has_c: true,
        ..same(name, share, what, make)
    }
}

const fn weigh(name: &'static str, share: usize, what: &'static str, make: Make) -> Kind {
    Kind {
        about: About::Weigh,
        ..one(name, share, what, make)
    }
}

/// A kind for WEIGH that draws c letters.
const fn weigh_c(name: &'static str, share: usize, what: &'static str, make: Make) -> Kind {
    Kind {
        has_c: true,
        ..weigh(name, share, what, make)
    }
}

const fn at_most(name: &'static str, share: usize, what: &'static str, make: Make) -> Kind {
    Kind {
        about: About::AtMost,
        ..one(name, share, what, make)
    }
}

/// A kind for WEIGH with a path in hand that draws c letters.
const fn at_most_c(name: &'static str, share: usize, what: &'static str, make: Make) -> Kind {
    Kind {
        has_c: true,
        ..at_most(name, share, what, make)
    }
}

/// The kinds; the shares of those with one right side make a thousand, of those with several, of those for CHECK, of
/// those with c letters, of those for SAME and of those for WEIGH five hundred each, and of those for WEIGH with a path
/// in hand a hundred and fifty.
#[rustfmt::skip]
pub const KINDS: [Kind; 116] = [
    one("lines", 60, "malformed lines, keys, digits and lengths", broken::lines),
    one("sides", 80, "a side that is no term", refused::sides),
    one("nodes", 40, "sides of 29 nodes and more", refused::nodes),
    one("letters", 40, "five to eight letters", refused::many_letters),
    one("limits", 80, "limits at 0, 1 and about their bounds", refused::limits),
    one("equal", 20, "equal sides", refused::equal),
    one("several", 50, "several reasons to refuse", refused::several),
    one("damaged", 110, "good texts with damaged bytes", broken::damaged),
    one("laws", 60, "both sides of one law", searched::laws),
    one("paths", 150, "ends of a chain of 1 to 4 lines", searched::paths),
    one("pairs", 40, "two random terms", searched::pairs),
    one("cuts", 60, "nodes about the number of terms at a distance below steps", cuts::one),
    one("edges", 40, "a limit about what the search takes", searched::edges),
    one("slots", 50, "slots about the number needed", searched::slots),
    one("room", 50, "room about the answer's length", searched::room),
    one("words", 20, "up to 324 words a side", listed::words),
    one("parted", 20, "lists with common words in front, up to 288", parted::parted),
    one("renames", 29, "up to six letters to rename", listed::renames),
    one("heavy", 1, "the largest limits, seconds each", searched::heavy),
    many("plans", 95, "2 to 16 right sides, near and far", plans::plans),
    many("plan-cuts", 35, "nodes about the number of terms at a distance below steps", cuts::several),
    many("plan-edges", 25, "a limit about what one right side takes", plans::edges),
    many("plan-slots", 70, "slots about what one right side needs", plans::slots),
    many("plan-room", 45, "room about all blocks, or the first ones", plans::room),
    many("right-count", 30, "15 right lines and more", spoilt::right_count),
    many("one-wrong", 60, "one right side that refuses the job", spoilt::one_wrong),
    many("each-six", 20, "six letters, or seven, in each equation", spoilt::each_six),
    many("plan-faults", 40, "several reasons to refuse", spoilt::faults),
    many("lengths", 30, "texts of about 1,024 and 4,096 bytes", spoilt::lengths),
    many("right-lines", 29, "right lines out of place, malformed lines", spoilt::right_lines),
    many("plan-damage", 20, "good texts with damaged bytes", spoilt::damaged),
    many("plan-heavy", 1, "the largest limits, some ten seconds for each right side", plans::heavy),
    check("found", 60, "lines of a proved answer of FIND", chains::found),
    check("walks", 80, "chains of 1 to 40 lines", chains::walks),
    check("returns", 25, "chains that come back to left", chains::returns),
    check("deep", 25, "31 nodes, the deepest places", chains::deep),
    check("bent", 100, "one field of one line changed", bent::bent),
    check("torn", 40, "lines or sides dropped, exchanged or changed", bent::torn),
    check("twofold", 25, "a letter of a law that meets two terms", bent::twofold),
    check("step-lines", 45, "malformed lines, laws, directions and places", unread::lines),
    check("step-terms", 20, "a side or a result that is no term", unread::terms),
    check("step-nodes", 15, "terms of 29 nodes and more", measured::nodes),
    check("step-names", 15, "five to eight letters in all terms", measured::names),
    check("no-step", 5, "no step line", measured::no_step),
    check("step-room", 10, "room about the answer's length", chains::room),
    check("step-faults", 20, "several reasons to refuse", measured::faults),
    check("step-bytes", 5, "texts of about 8,192 bytes", measured::bytes),
    check("step-damage", 10, "good texts with damaged bytes", unread::damaged),
    fixed("c-laws", 15, "both sides of one law", searched::laws),
    fixed("c-paths", 45, "ends of a chain of 1 to 4 lines", searched::paths),
    fixed("c-pairs", 15, "two random terms", searched::pairs),
    fixed("c-cuts", 15, "nodes about the number of terms at a distance below steps", cuts::one),
    fixed("c-edges", 10, "a limit about what the search takes", searched::edges),
    fixed("c-slots", 10, "slots about the number needed", searched::slots),
    fixed("c-room", 10, "room about the answer's length", searched::room),
    fixed("c-words", 10, "up to 324 words a side", listed::words),
    fixed("c-parted", 10, "lists with common words in front, up to 288", parted::parted),
    fixed("c-renames", 50, "up to six v letters to rename beside c letters", listed::renames),
    fixed("c-letters", 20, "five to eight v letters, up to 32 letters", refused::many_letters),
    fixed("c-most", 30, "eleven to 32 letters, some sides some lines apart", most::letters),
    fixed("c-sides", 25, "a side that is no term, mostly by a c letter that is none", refused::sides),
    fixed("c-several", 5, "several reasons to refuse", refused::several),
    fixed("c-damaged", 15, "good texts with damaged bytes", broken::damaged),
    fixed("c-plans", 30, "2 to 16 right sides, near and far", plans::plans),
    fixed("c-few-slots", 10, "slots about what one right side needs", plans::slots),
    fixed("c-each-six", 15, "six v letters, or seven, in each equation", spoilt::each_six),
    fixed("c-one-wrong", 10, "one right side that refuses the job", spoilt::one_wrong),
    fixed("c-found", 15, "lines of a proved answer of FIND", chains::found),
    fixed("c-walks", 45, "chains of 1 to 40 lines", chains::walks),
    fixed("c-bent", 40, "one field of one line changed", bent::bent),
    fixed("c-torn", 10, "lines or sides dropped, exchanged or changed", bent::torn),
    fixed("c-twofold", 10, "a letter of a law that meets two terms", bent::twofold),
    fixed("c-terms", 15, "a side or a result that is no term", unread::terms),
    fixed("c-names", 15, "five to eight v letters in all terms, and c letters", measured::names),
    same("yes", 80, "the same words by other terms", same::yes),
    same("counts", 90, "counts of words that differ", same::counts),
    same("early", 45, "as many words, lists that part at the first", same::early),
    same("late", 65, "as many words, lists with common words in front", same::late),
    same("few-words", 40, "no word or one on a side", same::few),
    same("line-room", 40, "no room, or about the length of the line", same::room),
    same("same-faults", 45, "refusals 2 to 6, several reasons", same::faults),
    same("same-lines", 35, "malformed lines, damaged texts, several right lines", same::lines),
    same_c("c-yes", 10, "the same words by other terms", same::yes),
    same_c("c-counts", 10, "counts of words that differ", same::counts),
    same_c("c-early", 10, "as many words, lists that part at the first", same::early),
    same_c("c-late", 15, "as many words, lists with common words in front", same::late),
    same_c("c-faults", 15, "refusals 2 to 6, several reasons", same::faults),
    weigh("lightest", 90, "equations as FIND is asked, any weights", weigh::lightest),
    weigh("even", 55, "all weights alike, beside FIND", weigh::even),
    weigh("detours", 45, "heavy laws on a short path, light ones elsewhere", weigh::detours),
    weigh("far", 20, "ends of long walks, totals up to 99", far::far),
    weigh("long", 5, "sides up to 60 lines apart", far::long),
    weigh("reach", 45, "nodes about the number of terms within cost", far::reach),
    weigh("weigh-edges", 45, "a limit about what the search takes", weigh::edges),
    weigh("weigh-slots", 45, "slots about the number noted", weigh::slots),
    weigh("weigh-room", 25, "room about the answer's length", weigh::room),
    weigh("ranges", 25, "cost and weights about their ranges", unweighed::ranges),
    weigh("weigh-lines", 29, "malformed lines and weights", unweighed::lines),
    weigh("weigh-wrong", 15, "several reasons to refuse", unweighed::wrong),
    weigh("weigh-sides", 8, "a side that is no term or too large, equal sides", unweighed::sides),
    weigh("weigh-bytes", 5, "texts of about 1,024 bytes", unweighed::bytes),
    weigh("harmed", 10, "good texts with damaged bytes", unweighed::harmed),
    weigh("weigh-heavy", 1, "4,096 nodes, seconds each", far::heavy),
    weigh_c("c-lightest", 12, "equations as FIND is asked, any weights", weigh::lightest),
    weigh_c("c-detours", 8, "heavy laws on a short path, light ones elsewhere", weigh::detours),
    weigh_c("c-reach", 7, "nodes about the number of terms within cost", far::reach),
    weigh_c("c-wrong", 5, "several reasons to refuse", unweighed::wrong),
    at_most("in-hand", 45, "nodes run out with right noted", hand::in_hand),
    at_most("replaced", 25, "nodes about a term by which right's path is replaced", hand::replaced),
    at_most("hand-far", 15, "nodes run out with a long path in hand", hand::far),
    at_most("hand-cost", 15, "cost about the total in hand", hand::cost),
    at_most("hand-even", 10, "all weights alike, beside FIND", hand::even),
    at_most("one-node", 10, "sides one line apart, one node or a few", hand::one_node),
    at_most("hand-slots", 12, "slots about the number noted", hand::slots),
    at_most("hand-room", 8, "room about the answer's length", hand::room),
    at_most_c("c-in-hand", 10, "nodes run out with right noted", hand::in_hand),
];
