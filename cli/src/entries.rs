//! The archive's C functions, each behind a safe one. They are declared here alone.
//!
//! Each is proved for slices of any length and contents: it reads and writes nothing beside them, and keeps none. So a call asks of its
//! pointers only what every slice has: they are aligned and not null, even those of empty slices, and no two slices overlap, as two are
//! borrowed mutably. A call takes the stack that include/puvainy.h says; a thread that is started with less must make none.

unsafe extern "C" {
    fn puvainy_find(
        job: *const u8,
        job_len: usize,
        output: *mut u8,
        output_len: usize,
        workspace: *mut u32,
        workspace_len: usize,
    ) -> usize;
    fn puvainy_words(job: *const u8, job_len: usize, output: *mut u8, output_len: usize) -> usize;
    fn puvainy_rename(job: *const u8, job_len: usize, output: *mut u8, output_len: usize) -> usize;
    fn puvainy_check(text: *const u8, text_len: usize, output: *mut u8, output_len: usize)
    -> usize;
    fn puvainy_put(
        text: *const u8,
        text_len: usize,
        catalogue: *mut u32,
        catalogue_len: usize,
    ) -> usize;
    fn puvainy_withdraw(
        text: *const u8,
        text_len: usize,
        catalogue: *mut u32,
        catalogue_len: usize,
    ) -> usize;
    fn puvainy_same(job: *const u8, job_len: usize, output: *mut u8, output_len: usize) -> usize;
    fn puvainy_weigh(
        job: *const u8,
        job_len: usize,
        output: *mut u8,
        output_len: usize,
        workspace: *mut u32,
        workspace_len: usize,
    ) -> usize;
}

/// FIND: what the call returns, `ANSWER` plus the answer's length or the number of a refusal.
pub fn find(job: &[u8], output: &mut [u8], workspace: &mut [u32]) -> usize {
    let (room, count) = (output.len(), workspace.len());
    let (out, numbers) = (output.as_mut_ptr(), workspace.as_mut_ptr());
    // SAFETY: pointers and lengths are those of three slices.
    unsafe { puvainy_find(job.as_ptr(), job.len(), out, room, numbers, count) }
}

/// WORDS, likewise.
pub fn words(job: &[u8], output: &mut [u8]) -> usize {
    // SAFETY: pointers and lengths are those of two slices.
    unsafe { puvainy_words(job.as_ptr(), job.len(), output.as_mut_ptr(), output.len()) }
}

/// RENAME, likewise.
pub fn rename(job: &[u8], output: &mut [u8]) -> usize {
    // SAFETY: pointers and lengths are those of two slices.
    unsafe { puvainy_rename(job.as_ptr(), job.len(), output.as_mut_ptr(), output.len()) }
}

/// CHECK, likewise, of a derivation's text.
pub fn check(text: &[u8], output: &mut [u8]) -> usize {
    // SAFETY: pointers and lengths are those of two slices.
    unsafe { puvainy_check(text.as_ptr(), text.len(), output.as_mut_ptr(), output.len()) }
}

/// PUT: what the call returns, `ANSWER` plus the count of kinds then held or the number of a refusal.
pub fn put(text: &[u8], catalogue: &mut [u32]) -> usize {
    let count = catalogue.len();
    // SAFETY: pointers and lengths are those of two slices.
    unsafe { puvainy_put(text.as_ptr(), text.len(), catalogue.as_mut_ptr(), count) }
}

/// WITHDRAW, likewise.
pub fn withdraw(text: &[u8], catalogue: &mut [u32]) -> usize {
    let count = catalogue.len();
    // SAFETY: pointers and lengths are those of two slices.
    unsafe { puvainy_withdraw(text.as_ptr(), text.len(), catalogue.as_mut_ptr(), count) }
}

/// SAME: what the call returns, `ANSWER` plus the answer's length or the number of a refusal, as of WORDS.
pub fn same(job: &[u8], output: &mut [u8]) -> usize {
    // SAFETY: pointers and lengths are those of two slices.
    unsafe { puvainy_same(job.as_ptr(), job.len(), output.as_mut_ptr(), output.len()) }
}

/// WEIGH, likewise, as of FIND.
pub fn weigh(job: &[u8], output: &mut [u8], workspace: &mut [u32]) -> usize {
    let (room, count) = (output.len(), workspace.len());
    let (out, numbers) = (output.as_mut_ptr(), workspace.as_mut_ptr());
    // SAFETY: pointers and lengths are those of three slices.
    unsafe { puvainy_weigh(job.as_ptr(), job.len(), out, room, numbers, count) }
}
