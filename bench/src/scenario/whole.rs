//! The calls on the whole store.

use super::known::fitting;
use super::{BASE, Call, Hash, Op, Scenario, Setup, try_};

/// The same call again and again, on a store that is full of known keys.
pub fn whole(op: Op, calls: usize, (max_keys, shards): (usize, usize)) -> Scenario {
    let setup = Setup {
        max_keys,
        shards,
        ..BASE
    };
    let keys = fitting(&setup, max_keys, Hash::Fnv1a);
    // A set-up writes the whole memory.
    let calls = if matches!(op, Op::SetUp) {
        calls / (100 * max_keys.div_ceil(4_096))
    } else {
        calls
    };
    let call = Call {
        op,
        ..try_(0, Hash::Fnv1a.key(0), 0)
    };
    Scenario {
        name: String::new(),
        setup,
        before: keys.iter().map(|&key| try_(0, key, 1)).collect(),
        timed: vec![call; calls],
        code: 0,
    }
}
