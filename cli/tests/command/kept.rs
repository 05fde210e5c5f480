//! How a catalogue is kept: what is told as done is in the file, and nothing is lost. That a run is stopped anywhere, or that a call of
//! the system fails, is tried by `.ci/catalogue`.

use std::fs::{self, File};
use std::io::{BufRead, BufReader, Read, Write};
use std::os::unix::fs::{PermissionsExt, symlink};
use std::process::{Child, Stdio};

use crate::common::{Folder, Gave, call, puvainy, puvainy_on, shell, stored};

/// The call failed: it printed nothing and said this.
fn failed(gave: Gave, said: &str) {
    assert_eq!((gave.status, gave.printed.as_str()), (Some(2), ""));
    assert_eq!(gave.said, format!("puvainy: {said}\n"));
}

fn put(file: &str, text: &str) -> Gave {
    puvainy(&["put", "--catalogue", file, text])
}

/// A put that is begun, with its text written.
fn begun(file: &str, number: usize) -> Child {
    let mut command = call(&["put", "--catalogue", file]);
    let piped = command
        .stdin(Stdio::piped())
        .stdout(Stdio::piped())
        .stderr(Stdio::piped());
    let mut child = piped.spawn().expect("the command starts");
    let text = stored("archive.put").replacen("number=1\n", &format!("number={number}\n"), 1);
    let mut input = child.stdin.take().expect("it is piped");
    input.write_all(text.as_bytes()).expect("it is read");
    child
}

#[test]
fn puts_at_the_same_time_are_all_kept() {
    let folder = Folder::new("together");
    let file = folder.file("training.catalogue");
    let children: Vec<_> = (1..=12).map(|number| begun(&file, number)).collect();
    for child in children {
        let gave: Gave = child.wait_with_output().unwrap().into();
        assert_eq!((gave.status, gave.printed.as_str()), (Some(0), "kinds=1\n"));
    }
    for number in 1..=12 {
        let text = format!("number={number}\n");
        let gave = puvainy_on(&["withdraw", "--catalogue", &file], text.as_bytes());
        let kinds = usize::from(number < 12);
        assert_eq!(gave.printed, format!("kinds={kinds}\n"), "{number}");
    }
}

#[test]
fn one_waits_for_another_and_says_so() {
    let folder = Folder::new("waiting");
    let file = folder.file("training.catalogue");
    let lock = File::create(format!("{file}.lock")).unwrap();
    lock.lock().unwrap();
    let mut child = begun(&file, 1);
    let mut said = BufReader::new(child.stderr.take().unwrap());
    let mut line = String::new();
    said.read_line(&mut line).unwrap();
    assert_eq!(line, format!("puvainy: waiting: {file} is in use\n"));
    assert!(child.try_wait().unwrap().is_none());
    assert_eq!(folder.files(), ["training.catalogue.lock"]);
    drop(lock);
    let gave: Gave = child.wait_with_output().unwrap().into();
    assert_eq!((gave.status, gave.printed.as_str()), (Some(0), "kinds=1\n"));
}

/// A text that is still to be read keeps nobody from the catalogue.
#[test]
fn one_that_waits_for_its_text_holds_up_nobody() {
    let folder = Folder::new("unread");
    let file = folder.file("training.catalogue");
    let mut command = call(&["put", "--catalogue", &file]);
    let mut child = command
        .stdin(Stdio::piped())
        .stdout(Stdio::piped())
        .spawn()
        .unwrap();
    assert_eq!(put(&file, "archive.put").printed, "kinds=1\n");
    let mut input = child.stdin.take().unwrap();
    input.write_all(stored("own-rows.put").as_bytes()).unwrap();
    drop(input);
    let mut printed = String::new();
    child
        .stdout
        .take()
        .unwrap()
        .read_to_string(&mut printed)
        .unwrap();
    assert_eq!(
        (child.wait().unwrap().code(), printed.as_str()),
        (Some(0), "kinds=2\n")
    );
}

/// The system lets files grow to some 500,000 bytes at most: the run is stopped while it writes, or told.
#[test]
fn a_run_that_is_stopped_while_it_writes_leaves_the_catalogue_as_it_was() {
    let folder = Folder::new("stopped");
    let file = folder.file("training.catalogue");
    assert_eq!(put(&file, "archive.put").status, Some(0));
    let before = fs::read(&file).unwrap();
    let limited = |more| {
        format!("ulimit -c 0; ulimit -f 500; {more} $P put --catalogue '{file}' own-rows.put")
    };
    let gave = shell(&limited("exec"));
    assert_eq!((gave.status, gave.printed.as_str()), (None, ""));
    assert!(fs::read(&file).unwrap() == before);
    assert!(
        folder
            .files()
            .contains(&"training.catalogue.new".to_owned())
    );
    let gave = shell(&limited("trap '' XFSZ; exec"));
    let said = format!(
        "own-rows.put: cannot write {file}: it would become too large; the catalogue is as it was"
    );
    failed(gave, &said);
    assert!(fs::read(&file).unwrap() == before);
    assert_eq!(
        folder.files(),
        ["training.catalogue", "training.catalogue.lock"]
    );
    assert_eq!(put(&file, "own-rows.put").printed, "kinds=2\n");
}

/// Where the catalogue cannot be kept, what follows is not done.
#[test]
fn a_failure_to_keep_it_ends_the_run() {
    let folder = Folder::new("failure");
    let file = folder.file("training.catalogue");
    fs::create_dir(format!("{file}.new")).unwrap();
    let gave = puvainy(&[
        "put",
        "--catalogue",
        &file,
        "bad-key.put",
        "archive.put",
        "own-rows.put",
    ]);
    assert_eq!(gave.status, Some(2));
    assert_eq!(gave.printed, "# bad-key.put\nanswer=refused\nnumber=1\n");
    let said = format!(
        "puvainy: archive.put: cannot write {file}: it is a directory; \
         the catalogue is as it was; nothing behind archive.put is done\n"
    );
    assert!(gave.said.ends_with(&said), "{}", gave.said);
    assert!(!fs::exists(&file).unwrap());
}

/// What was kept and could not be told is said to be kept; with a closed output nothing is begun.
#[test]
fn an_output_that_fails_is_told_with_what_was_done() {
    let folder = Folder::new("output");
    let file = folder.file("training.catalogue");
    let closed = shell(&format!("$P put --catalogue '{file}' archive.put >&-"));
    failed(closed, "cannot write to standard output: it is closed");
    assert!(folder.files().is_empty());
    let call = format!("$P put --catalogue '{file}' archive.put own-rows.put >/dev/full");
    let said = "cannot write to standard output: there is no space left; archive.put is done; \
                nothing behind archive.put is done";
    failed(shell(&call), said);
    assert_eq!(
        put(&file, "archive.put").printed,
        "answer=refused\nnumber=13\n"
    );
    assert_eq!(put(&file, "own-rows.put").printed, "kinds=2\n");
}

#[test]
fn what_is_no_catalogue_is_left_alone() {
    let folder = Folder::new("other");
    let file = folder.file("training.catalogue");
    for bytes in [0, 1, 1_384_451, 1_384_453, 2_000_000] {
        fs::write(&file, vec![b'a'; bytes]).unwrap();
        let gave = put(&file, "archive.put");
        assert_eq!(
            (gave.status, gave.printed.as_str()),
            (Some(1), "answer=refused\nnumber=99\n")
        );
        let said = format!(
            "puvainy: archive.put: {file}: the file is no catalogue, which has 1,384,452 bytes; \
             name a catalogue's file, or one that is not there yet, which is an empty catalogue (refusal 99)\n"
        );
        assert_eq!(gave.said, said);
        assert!(fs::read(&file).unwrap() == vec![b'a'; bytes]);
        assert_eq!(folder.files(), ["training.catalogue"]);
    }
}

#[test]
fn a_link_leads_to_the_catalogue_and_permissions_stay() {
    let folder = Folder::new("linked");
    let (file, link) = (folder.file("training.catalogue"), folder.file("link"));
    symlink("training.catalogue", &link).unwrap();
    let said = format!("cannot read {link}: there is no such file");
    failed(put(&link, "archive.put"), &said);
    assert_eq!(put(&file, "archive.put").printed, "kinds=1\n");
    fs::set_permissions(&file, fs::Permissions::from_mode(0o640)).unwrap();
    assert_eq!(put(&link, "own-rows.put").printed, "kinds=2\n");
    let mode = fs::metadata(&file).unwrap().permissions().mode();
    assert_eq!(mode & 0o7777, 0o640);
    let files = ["link", "training.catalogue", "training.catalogue.lock"];
    assert_eq!(folder.files(), files);
    assert!(fs::symlink_metadata(&link).unwrap().is_symlink());
}

#[test]
fn a_wrong_call_is_2() {
    let folder = Folder::new("wrong");
    let needs = "put changes a catalogue: name its file by --catalogue FILE";
    failed(puvainy(&["put", "archive.put"]), needs);
    let nothing = "--catalogue takes a file, and nothing follows it";
    failed(puvainy(&["withdraw", "--catalogue"]), nothing);
    failed(put(".", "archive.put"), "cannot read .: it is a directory");
    let empty = puvainy(&["put", "--catalogue=", "archive.put"]);
    failed(empty, "cannot read \"\": there is no such file");
    let device = "cannot read /dev/null: it keeps nothing";
    failed(put("/dev/null", "archive.put"), device);
    let nowhere = folder.file("nowhere/training.catalogue");
    let said = format!("archive.put: cannot lock {nowhere}: there is no such file");
    failed(put(&nowhere, "archive.put"), &said);
    let room = puvainy(&["put", "--room", "9", "archive.put"]);
    failed(
        room,
        "there is no option --room here; --help shows those there are",
    );
}
