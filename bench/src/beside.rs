//! The entries of two releases, on the same jobs and buffers. Both come as shared libraries made of the releases' archives, so that neither
//! gains by being linked into the bench.

use std::ffi::{CString, c_char, c_int, c_void};
use std::hint::black_box;
use std::os::unix::ffi::OsStrExt;
use std::path::Path;
use std::process::exit;

use oracle::PROGRAM_ROOM;
use puvainy::{Entry, MOST_SLOTS, SLOT};

use crate::check;
use crate::find::{self, Timed};
use crate::lists::{ALIKE, MANY_WORDS};
use crate::ours::Workspace;
use crate::same;
use crate::table::{head, row};
use crate::weigh;

unsafe extern "C" {
    fn dlopen(file: *const c_char, flags: c_int) -> *mut c_void;
    fn dlsym(library: *mut c_void, name: *const c_char) -> *mut c_void;
}

type Find = unsafe extern "C" fn(*const u8, usize, *mut u8, usize, *mut u32, usize) -> usize;
type Lists = unsafe extern "C" fn(*const u8, usize, *mut u8, usize) -> usize;

/// The entries of a release.
struct Release {
    find: Find,
    words: Lists,
    rename: Lists,
    /// These three are not in every earlier release.
    check: Option<Lists>,
    same: Option<Lists>,
    weigh: Option<Find>,
}

impl Release {
    fn load(file: &Path) -> Option<Release> {
        const RTLD_NOW: c_int = 2;
        let name = CString::new(file.as_os_str().as_bytes()).ok()?;
        let library = unsafe { dlopen(name.as_ptr(), RTLD_NOW) };
        if library.is_null() {
            return None;
        }
        let named = |name: &str| {
            let name = CString::new(name).ok()?;
            let function = unsafe { dlsym(library, name.as_ptr()) };
            (!function.is_null()).then_some(function)
        };
        // The header has declared each so since it came in.
        unsafe {
            let as_find = |function| std::mem::transmute::<*mut c_void, Find>(function);
            let as_lists = |function| std::mem::transmute::<*mut c_void, Lists>(function);
            Some(Release {
                find: as_find(named("puvainy_find")?),
                words: as_lists(named("puvainy_words")?),
                rename: as_lists(named("puvainy_rename")?),
                check: named("puvainy_check").map(as_lists),
                same: named("puvainy_same").map(as_lists),
                weigh: named("puvainy_weigh").map(as_find),
            })
        }
    }

    fn call(&self, entry: Entry, job: &[u8], slots: usize, workspace: &mut Workspace) -> usize {
        let (text, length) = (job.as_ptr(), job.len());
        let (out, numbers) = (
            workspace.output.as_mut_ptr(),
            workspace.numbers.as_mut_ptr(),
        );
        assert!(slots * SLOT <= workspace.numbers.len() && PROGRAM_ROOM <= workspace.output.len());
        let later = |entry: Option<Lists>| entry.expect("the release has it");
        let searched = |search: Find| unsafe {
            search(text, length, out, PROGRAM_ROOM, numbers, slots * SLOT)
        };
        unsafe {
            match entry {
                Entry::Find => searched(self.find),
                Entry::Weigh => searched(self.weigh.expect("the release has it")),
                Entry::Words => (self.words)(text, length, out, PROGRAM_ROOM),
                Entry::Rename => (self.rename)(text, length, out, PROGRAM_ROOM),
                Entry::Check => later(self.check)(text, length, out, PROGRAM_ROOM),
                Entry::Same => later(self.same)(text, length, out, PROGRAM_ROOM),
            }
        }
    }
}

/// Rounds for the jobs at the largest limits: more than beside the Rust, which takes seconds there, since they wait for memory and vary.
const LEAST_ROUNDS: usize = 100;

pub fn rows(before: Option<&str>, now: Option<&str>, workspace: &mut Workspace) {
    let (Some(before), Some(now)) = (before, now) else {
        eprintln!("bench: which two libraries? cargo run --release -- beside BEFORE NOW");
        exit(2);
    };
    let releases = [&loaded(before), &loaded(now)];
    head("before", "now");
    for Timed {
        what,
        job,
        slots,
        rounds,
    } in find::jobs()
    {
        let rounds = rounds.max(LEAST_ROUNDS);
        one(
            &what,
            Entry::Find,
            &job.text(),
            slots,
            rounds,
            releases,
            workspace,
        );
    }
    for (what, entry, job) in [
        ("WORDS, 324 words a side", Entry::Words, MANY_WORDS),
        ("RENAME, 324 words a side", Entry::Rename, MANY_WORDS),
        ("RENAME, the same, letters alike", Entry::Rename, ALIKE),
    ] {
        one(what, entry, &job.text(), 0, 100, releases, workspace);
    }
    later(releases, workspace);
}

/// The entries that came in later, each if both releases have it.
fn later(releases: [&Release; 2], workspace: &mut Workspace) {
    if releases.iter().all(|release| release.check.is_some()) {
        let text = check::derivation(&check::REGROUPED, workspace);
        let what = "CHECK, 16 lines on terms of 31 nodes";
        one(what, Entry::Check, &text, 0, 100, releases, workspace);
    }
    if releases.iter().all(|release| release.same.is_some()) {
        for (what, job) in same::JOBS {
            let (what, text) = (format!("SAME, {what}"), job.text());
            one(&what, Entry::Same, &text, 0, 100, releases, workspace);
        }
    }
    if releases.iter().all(|release| release.weigh.is_some()) {
        for (what, text) in weigh::jobs() {
            let what = format!("WEIGH, {what}");
            one(
                &what,
                Entry::Weigh,
                &text,
                MOST_SLOTS,
                20,
                releases,
                workspace,
            );
        }
    }
}

fn loaded(file: &str) -> Release {
    let path = std::fs::canonicalize(file).unwrap_or_else(|error| {
        eprintln!("bench: {file}: {error}");
        exit(2);
    });
    Release::load(&path).unwrap_or_else(|| {
        eprintln!("bench: {file} cannot be loaded as a shared library with find, words and rename");
        exit(2);
    })
}

fn one(
    what: &str,
    entry: Entry,
    text: &[u8],
    slots: usize,
    rounds: usize,
    [before, now]: [&Release; 2],
    workspace: &mut Workspace,
) {
    let given = [before, now].map(|release| {
        workspace.output.fill(0);
        let told = release.call(entry, text, slots, workspace);
        (told, workspace.output.clone())
    });
    let note = if given[0] == given[1] {
        ""
    } else {
        " (another answer)"
    };
    let workspace = std::cell::RefCell::new(workspace);
    row(
        &format!("{what}{note}"),
        rounds,
        || before.call(entry, black_box(text), slots, &mut workspace.borrow_mut()),
        || now.call(entry, black_box(text), slots, &mut workspace.borrow_mut()),
    );
}
