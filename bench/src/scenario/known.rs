//! Many modems that all have a slot, in random order.

use published::Key;

use super::{BASE, Call, Hash, MS, Op, Scenario, Setup, try_};

/// A call every microsecond, or less often where the keys are few, each on a random one of the keys.
pub fn known(op: Op, calls: usize, (max_keys, shards): (usize, usize), hash: Hash) -> Scenario {
    let setup = Setup {
        max_keys,
        shards,
        ..BASE
    };
    let keys = fitting(&setup, max_keys, hash);
    // Tokens can be given back only to keys that lack some.
    let spent = if matches!(op, Op::Refund) { 100 } else { 1 };
    // A key gets a token back every millisecond. Where the keys are few it is asked every other millisecond, so that it never lacks one.
    let step = (2 * MS / max_keys as u64).max(1_000);
    let mut random = Random(1);
    let timed = (0..calls as u64).map(|i| Call {
        op,
        ..try_(i * step, random.pick(&keys), 1)
    });
    Scenario {
        name: String::new(),
        setup,
        timed: timed.collect(),
        before: keys.iter().map(|&key| try_(0, key, spent)).collect(),
        code: 0,
    }
}

/// Each is removed and comes back at once: two calls.
pub fn removals(calls: usize, sizes: (usize, usize)) -> Scenario {
    let scenario = known(Op::Try, calls / 2, sizes, Hash::Fnv1a);
    let pair = |call: &Call| {
        let op = Op::Remove;
        [Call { op, ..*call }, *call]
    };
    Scenario {
        timed: scenario.timed.iter().flat_map(pair).collect(),
        ..scenario
    }
}

/// Keys that all find room in their shards.
pub fn fitting(setup: &Setup, count: usize, hash: Hash) -> Vec<Key> {
    let mut held = vec![0; setup.shards];
    let fits = |key: &Key| {
        let shard = (key.hash >> 40) as usize & (setup.shards - 1);
        held[shard] += 1;
        held[shard] <= setup.cap()
    };
    (0..)
        .map(|number| hash.key(number))
        .filter(fits)
        .take(count)
        .collect()
}

/// xorshift64*.
struct Random(u64);

impl Random {
    fn pick(&mut self, keys: &[Key]) -> Key {
        self.0 ^= self.0 >> 12;
        self.0 ^= self.0 << 25;
        self.0 ^= self.0 >> 27;
        let number = self.0.wrapping_mul(0x2545_f491_4f6c_dd1d);
        keys[(number >> 33) as usize % keys.len()]
    }
}
