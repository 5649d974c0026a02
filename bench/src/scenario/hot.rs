//! One modem that asks again and again.

use super::{BASE, Call, Hash, MS, Op, Scenario, Setup, try_};

/// A call of a token every millisecond, which is when a token comes back. A try and a peek find it there; a reservation, on a bucket that was
/// emptied before, is granted and to be waited for.
pub fn hot(op: Op, calls: usize, idle: Option<u64>) -> Scenario {
    let key = Hash::Fnv1a.key(7);
    let cost = if matches!(op, Op::Reserve) { 100 } else { 1 };
    let timed = (1..=calls as u64).map(|i| Call {
        op,
        now: i * MS,
        key,
        cost: 1,
    });
    Scenario {
        name: String::new(),
        setup: Setup { idle, ..BASE },
        before: vec![
            try_(0, key, cost),
            Call {
                op,
                ..try_(0, key, 1)
            },
        ],
        timed: timed.collect(),
        code: 0,
    }
}

/// A bucket that is empty, asked for all of its tokens every nanosecond: always denied.
pub fn hot_denied(calls: usize) -> Scenario {
    let key = Hash::Fnv1a.key(7);
    let timed = (0..calls as u64).map(|i| try_(i, key, 100));
    Scenario {
        name: String::new(),
        setup: BASE,
        before: vec![try_(0, key, 100)],
        timed: timed.collect(),
        code: 1,
    }
}
