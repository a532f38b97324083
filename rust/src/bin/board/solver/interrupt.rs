//! An interrupt (Ctrl-C) while a solver runs: it reaches the solver too, and the program lives on to remove its files.

use std::sync::atomic::{AtomicBool, Ordering};

/// The C library's numbers for the signal and for two ways to take it.
const INTERRUPT: i32 = 2;
const ENDS_THE_PROGRAM: usize = 0;
const IS_IGNORED: usize = 1;

static IS_HEARD: AtomicBool = AtomicBool::new(false);

extern "C" {
    fn signal(number: i32, handler: usize) -> usize;
}

/// From now on the first interrupt is noted; a second one ends the program at once, as it does without this.
pub fn listen() {
    let noting: extern "C" fn(i32) = note;
    // `note` does only what a handler may do: it sets a flag and calls `signal`.
    unsafe {
        if signal(INTERRUPT, noting as usize) == IS_IGNORED {
            signal(INTERRUPT, IS_IGNORED);
        }
    }
}

pub fn is_heard() -> bool {
    IS_HEARD.load(Ordering::SeqCst)
}

extern "C" fn note(_: i32) {
    IS_HEARD.store(true, Ordering::SeqCst);
    unsafe { signal(INTERRUPT, ENDS_THE_PROGRAM) };
}
