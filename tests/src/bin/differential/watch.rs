//! Says which case was compared where a page beside something lent stops the process.

use std::cell::Cell;
use std::ffi::{c_int, c_void};
use std::io::Write;

/// The status that the process then ends with.
pub const STOPPED: c_int = 3;

// The system's own calls, as Linux on x86-64 has them.
extern "C" {
    fn signal(number: c_int, handler: extern "C" fn(c_int)) -> usize;
    fn write(file: c_int, bytes: *const c_void, length: usize) -> isize;
    fn _exit(status: c_int) -> !;
}
const SIGBUS: c_int = 7;
const SIGSEGV: c_int = 11;
const STANDARD_OUTPUT: c_int = 1;

thread_local! {
    static AT: Cell<(&'static str, u64, u64)> = const { Cell::new(("no function", 0, 0)) };
}

/// What this thread compares now.
pub fn at(function: &'static str, seed: u64, case: u64) {
    AT.with(|at| at.set((function, seed, case)));
}

/// It runs on the thread that was stopped, and takes no memory and no lock.
extern "C" fn stopped(_: c_int) {
    let (function, seed, case) = AT.with(|at| at.get());
    let mut line = [0u8; 200];
    let mut rest = &mut line[..];
    let _ = writeln!(rest, "{function}, seed {seed}, case {case}: a byte outside of what was lent was read or written");
    let left = rest.len();
    unsafe {
        write(STANDARD_OUTPUT, line.as_ptr().cast(), line.len() - left);
        _exit(STOPPED)
    }
}

pub fn begin() {
    for number in [SIGSEGV, SIGBUS] {
        unsafe { signal(number, stopped) };
    }
}
