//! Says where the comparison was when the library touches what was not lent.

use std::{ffi::c_int, sync::Mutex};

const SIGNALS: [(c_int, &str); 5] = [
    (4, "an illegal instruction"),
    (6, "an abort"),
    (7, "memory that is not there"),
    (8, "an arithmetic trap"),
    (11, "memory that was not lent"),
];

unsafe extern "C" {
    fn signal(number: c_int, handler: extern "C" fn(c_int)) -> usize;
    fn _exit(status: c_int) -> !;
}

static AT: Mutex<(&str, u64)> = Mutex::new(("", 0));

/// The comparison goes on to this input.
pub fn at(call: &'static str, input: u64) {
    if let Ok(mut at) = AT.lock() {
        *at = (call, input);
    }
}

pub fn set() {
    for (number, _) in SIGNALS {
        // SAFETY: the handler ends the process.
        unsafe { signal(number, trapped) };
    }
}

/// The process is single-threaded and ends here, so printing does no harm.
extern "C" fn trapped(number: c_int) {
    let what = SIGNALS.iter().find(|(signal, _)| *signal == number);
    let (call, input) = AT.try_lock().map_or(("", 0), |at| *at);
    let what = what.map_or("a signal", |(_, what)| what);
    println!("{what}: input {input} of the calls with {call}");
    // SAFETY: nothing is to be put away.
    unsafe { _exit(1) }
}
