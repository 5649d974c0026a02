//! Crashes and calls that do not end: says at which trace and call, and ends the run.

use core::ffi::c_int;
use std::sync::atomic::{AtomicU64, Ordering::Relaxed};
use std::time::Duration;

static SEED: AtomicU64 = AtomicU64::new(0);
static TRACE: AtomicU64 = AtomicU64::new(0);
static CALL: AtomicU64 = AtomicU64::new(0);

/// A call that takes longer than this does not end, as far as we can tell.
const LONGEST: Duration = Duration::from_secs(60);

unsafe extern "C" {
    fn signal(number: c_int, handler: extern "C" fn(c_int)) -> usize;
    fn _exit(code: c_int) -> !;
}

pub fn at_trace(trace: u64) {
    TRACE.store(trace, Relaxed);
}

pub fn at_call(call: u64) {
    CALL.store(call, Relaxed);
}

/// Watches for faults of the library (illegal instruction, abort, bus, division, segment) and for a call that does not end.
pub fn watch(seed: u64) {
    SEED.store(seed, Relaxed);
    for number in [4, 6, 7, 8, 11] {
        // SAFETY: the handler only prints and ends the process.
        unsafe { signal(number, faulted) };
    }
    let _watcher = std::thread::spawn(|| {
        loop {
            let before = CALL.load(Relaxed);
            std::thread::sleep(LONGEST);
            if CALL.load(Relaxed) == before {
                say("a call does not end");
            }
        }
    });
}

extern "C" fn faulted(number: c_int) {
    say(&format!("signal {number}"));
}

fn say(what: &str) -> ! {
    let (seed, trace, call) = (SEED.load(Relaxed), TRACE.load(Relaxed), CALL.load(Relaxed));
    println!(
        "{what}: seed {seed} trace {trace} call {call}; run again with --seed {seed} --only {trace} --show"
    );
    // SAFETY: ends the process.
    unsafe { _exit(1) }
}
