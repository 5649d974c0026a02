//! Rounds and their times.

use crate::callgrind;
use crate::scenario::Scenario;
use crate::sides::{Side, Sums, drive};

/// `struct timespec`.
#[repr(C)]
struct Timespec {
    seconds: i64,
    nanos: i64,
}

unsafe extern "C" {
    fn clock_gettime(clock: i32, time: *mut Timespec) -> i32;
}

/// `CLOCK_THREAD_CPUTIME_ID` on Linux.
const THREAD_CPU: i32 = 3;

/// The nanoseconds that this thread has run. Others on the machine do not count, but for the caches they share.
fn cpu_nanos() -> f64 {
    let mut time = Timespec {
        seconds: 0,
        nanos: 0,
    };
    // SAFETY: `time` is a timespec that lives through the call.
    let failed = unsafe { clock_gettime(THREAD_CPU, &raw mut time) };
    assert_eq!(failed, 0, "the thread's clock can be read");
    time.seconds as f64 * 1e9 + time.nanos as f64
}

/// What a round gave: nanoseconds a timed call, and the sums of the calls before and of the timed ones.
pub struct Round {
    pub nanos: f64,
    pub sums: [Sums; 2],
}

/// One round: a store brought into its state, and the timed calls. Under callgrind only these are counted.
pub fn round<S: Side>(scenario: &Scenario) -> Round {
    let mut side = S::new(&scenario.setup);
    let before = drive(&mut side, &scenario.before);
    callgrind::toggle();
    let start = cpu_nanos();
    let timed = drive(&mut side, &scenario.timed);
    let nanos = cpu_nanos() - start;
    callgrind::toggle();
    Round {
        nanos: nanos / scenario.timed.len() as f64,
        sums: [before, timed],
    }
}
