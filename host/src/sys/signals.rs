//! A signal is the end of what is read: the first INT, TERM or HUP asks for it, and a second one ends the program at
//! once.

use std::ffi::c_int;
use std::sync::atomic::{AtomicBool, Ordering};

static ASKED: AtomicBool = AtomicBool::new(false);

/// Whether a signal asked for the end.
pub fn asked() -> bool {
    ASKED.load(Ordering::SeqCst)
}

/// INT, TERM and HUP.
const SIGNALS: [c_int; 3] = [2, 15, 1];
const DEFAULT: usize = 0;
const IGNORED: usize = 1;

extern "C" {
    fn signal(number: c_int, handler: usize) -> usize;
}

/// Notes the signal; the next one does what it does to any program. (A handler may store a bool and call `signal`.)
extern "C" fn note_signal(_: c_int) {
    ASKED.store(true, Ordering::SeqCst);
    for number in SIGNALS {
        // SAFETY: the default needs no handler
        unsafe { signal(number, DEFAULT) };
    }
}

/// From here on a signal asks for the end. One that is ignored, as HUP behind `nohup`, stays so.
pub fn listen() {
    for number in SIGNALS {
        // SAFETY: the handler does what a handler may do, and lives as long as the program
        unsafe {
            if signal(number, note_signal as extern "C" fn(c_int) as usize) == IGNORED {
                signal(number, IGNORED);
            }
        }
    }
}
