//! The signals: SIGINT and SIGTERM ask for a stop, SIGUSR1 for the state; a reader that goes away ends the program.

use std::sync::atomic::{AtomicBool, AtomicU32, Ordering::SeqCst};

const SIGINT: i32 = 2;
const SIGTERM: i32 = 15;
const SIGUSR1: i32 = 10;
const SIGPIPE: i32 = 13;
const DEFAULT: usize = 0;

static STOPS: AtomicU32 = AtomicU32::new(0);
static STATE: AtomicBool = AtomicBool::new(false);

extern "C" {
    fn signal(number: i32, handler: usize) -> usize;
}

extern "C" fn caught(number: i32) {
    match number {
        SIGUSR1 => STATE.store(true, SeqCst),
        _ => {
            STOPS.fetch_add(1, SeqCst);
        }
    }
}

pub fn catch() {
    for number in [SIGINT, SIGTERM, SIGUSR1] {
        unsafe { signal(number, caught as extern "C" fn(i32) as usize) };
    }
}

/// Rust ignores SIGPIPE, and would complain at the next line.
pub fn end_with_reader() {
    unsafe { signal(SIGPIPE, DEFAULT) };
}

/// How often a stop was asked for.
pub fn stops() -> u32 {
    STOPS.load(SeqCst)
}

/// Whether the state was asked for since the last call.
pub fn state_wanted() -> bool {
    STATE.swap(false, SeqCst)
}
