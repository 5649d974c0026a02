//! Every call a modem never seen.

use super::rows::Row;
use super::{BASE, Call, Hash, MS, Scenario, Setup, try_};

/// A microsecond apart, each empties its bucket: slots and ledgers are full of keys that owe. Nothing settles meanwhile: a bucket takes 1,000 seconds
/// to be full.
pub fn all_owe(calls: usize, row: &Row) -> Scenario {
    let setup = Setup {
        amount: 1,
        burst: 1_000,
        ..row.setup(BASE)
    };
    let code = u64::from(!row.forget_debt);
    flood(
        calls,
        setup,
        row.hash,
        try_(1_000, row.hash.key(0), 1_000),
        code,
    )
}

/// A millisecond apart, each takes a token that is back by the time the hand comes round.
pub fn recovered(calls: usize, row: &Row) -> Scenario {
    flood(
        calls,
        row.setup(BASE),
        row.hash,
        try_(MS, row.hash.key(0), 1),
        0,
    )
}

/// New keys before the timing, four times as many as there is room for, and new keys to be timed: each call like `call`, and `call.now` after the
/// one before.
fn flood(calls: usize, setup: Setup, hash: Hash, call: Call, code: u64) -> Scenario {
    let first = 4 * setup.max_keys;
    let at = |i: usize| Call {
        now: i as u64 * call.now,
        key: hash.key(1_000_000 + i as u64),
        ..call
    };
    Scenario {
        name: String::new(),
        setup,
        before: (0..first).map(at).collect(),
        timed: (first..first + calls).map(at).collect(),
        code,
    }
}
