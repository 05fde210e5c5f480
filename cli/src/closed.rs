//! Which of the standard streams were closed when the process began.
//!
//! Before `main`, Rust's runtime opens the null device in the place of a closed one: an answer would vanish there, and a job would seem
//! empty. So the streams are looked at earlier, by a function that the system's loader calls.

use std::ffi::c_int;
use std::sync::atomic::{AtomicBool, Ordering};

/// Of input and output, whether it was closed.
static CLOSED: [AtomicBool; 2] = [AtomicBool::new(false), AtomicBool::new(false)];

#[cfg(any(target_os = "linux", target_vendor = "apple"))]
#[used]
#[cfg_attr(target_os = "linux", unsafe(link_section = ".init_array"))]
#[cfg_attr(
    target_vendor = "apple",
    unsafe(link_section = "__DATA,__mod_init_func")
)]
static LOOK: extern "C" fn() = look;

unsafe extern "C" {
    fn fcntl(descriptor: c_int, command: c_int, ...) -> c_int;
}

extern "C" fn look() {
    const GET_FLAGS: c_int = 1;
    for (descriptor, closed) in (0..).zip(&CLOSED) {
        // Asking for a descriptor's flags changes nothing, whatever the number is.
        let flags = unsafe { fcntl(descriptor, GET_FLAGS) };
        closed.store(flags == -1, Ordering::Relaxed);
    }
}

pub fn input() -> bool {
    CLOSED[0].load(Ordering::Relaxed)
}

pub fn output() -> bool {
    CLOSED[1].load(Ordering::Relaxed)
}
