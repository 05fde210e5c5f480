//! The word that draws a derivation.

use std::ffi::OsString;

use puvainy::MOST_ROOM;

use super::Word;
use crate::args::{Arg, Args, unknown};
use crate::failure::{Failure, Status, say, shown};
use crate::names::Names;
use crate::picture;
use crate::streams::{Source, print};

pub const DRAW: Word = Word {
    name: "draw",
    usage: "[--names FILE] [--page K] ANSWER > PICTURE.svg",
    does: "a picture of the derivation in an answer of find or weigh, proved or in hand, or of those in its blocks, or of one that check \
           takes",
    more: "\
ANSWER is a file that holds one answer of find or weigh, or a derivation as check takes it, or - for
standard input. The picture goes to standard output. A long derivation is cut into pages, one below the
other; each block of the answer has pages of its own. The heading says of an answer=atmost that its
derivation is in hand. The derivation is drawn as the text tells it, and not checked.

  --names FILE  lines `v0 Orders` or `c0 Prices`: tables are drawn with their names
  --page K      page K alone
  --            what follows is the ANSWER, even if it begins with -
",
    run,
};

fn run(words: Vec<OsString>) -> Result<Status, Failure> {
    let (mut names, mut page, mut answers) = (None, None, Vec::new());
    let mut args = Args::new(words);
    while let Some(arg) = args.next() {
        match arg {
            Arg::File(source) => answers.push(source),
            Arg::Option(option) => match option.as_str() {
                "--help" => return DRAW.helps(&mut args),
                "--names" => names = Some(args.value(&option, "a file")?),
                "--page" => page = Some(args.number(&option, 1, 999)?),
                _ => return Err(unknown(&option)),
            },
        }
    }
    let [answer] = &answers[..] else {
        let count = answers.len();
        return Err(Failure(format!(
            "draw takes one ANSWER, and {count} are named; --help tells more"
        )));
    };
    draw(answer, &Names::chosen(names)?, page)
}

/// Draws the answer; one that holds no derivation is refused.
fn draw(answer: &Source, names: &Names, page: Option<usize>) -> Result<Status, Failure> {
    let bytes = answer.read(MOST_ROOM)?;
    match picture::draw(&title(answer), &bytes, names, page) {
        Ok(picture) => {
            print(&picture)?;
            Ok(Status::Answered)
        }
        Err(why) => {
            say(&format!("{}: {why}", answer.name()));
            Ok(Status::Refused)
        }
    }
}

/// What the picture is called: the file's name without its ending.
fn title(answer: &Source) -> String {
    match answer {
        Source::Input => "answer".to_owned(),
        Source::File(path) => {
            let stem = path.file_stem().unwrap_or(path.as_os_str());
            shown(&stem.to_string_lossy())
        }
    }
}
