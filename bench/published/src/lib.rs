//! The published store and limiter, called without the refusals that the oracle puts in front.

#[path = "../../../oracle/src/key.rs"]
mod key;
// Much of the published text, and of the oracle's beside it, has no caller here.
#[allow(dead_code)]
#[path = "../../../oracle/src/layout.rs"]
mod layout;
#[allow(dead_code)]
#[path = "../../../oracle/src/throttle/mod.rs"]
mod throttle;

use core::time::Duration;
use std::sync::Arc;

use clock_lib::ManualClock;

// The published files name each other from the crate's root.
#[allow(unused_imports)]
use throttle::{decision, error, eviction, perkey, store};

use decision::Decision;
use perkey::PerKey;
use store::one_shard::OneShard;

pub use eviction::{Eviction, WhenFull};
pub use key::Key;

/// The key of this number, with our library's hash: FNV-1a over its eight bytes, lowest first.
#[inline]
#[must_use]
pub fn key(number: u64) -> Key {
    Key {
        hash: limiter_sys::limiter_key_hash(number),
        key: number,
    }
}

/// An answer's code and number, as the library numbers them. The published limiter has no moment beside them.
pub type Answer = (u64, u64);

/// `amount` tokens every `period` nanoseconds, at most `burst`, and `initial` for a new key.
pub struct Rate {
    pub amount: u32,
    pub period: u64,
    pub burst: u32,
    pub initial: u32,
}

/// The published limiter and the clock that it reads.
pub struct Limiter {
    published: PerKey<Key, Arc<ManualClock>>,
    clock: Arc<ManualClock>,
}

impl Limiter {
    #[must_use]
    pub fn new(rate: Rate, eviction: Eviction, shards: usize) -> Self {
        let clock = Arc::new(ManualClock::new());
        let published = PerKey::<Key>::builder()
            .rate(rate.amount, Duration::from_nanos(rate.period))
            .burst(rate.burst)
            .initial(rate.initial)
            .eviction(eviction)
            .shards(shards)
            .clock(Arc::clone(&clock))
            .build();
        Self { published, clock }
    }

    /// Sets the clock; a call then reads it.
    #[inline]
    pub fn set_clock(&self, now: u64) {
        self.clock.set(now);
    }

    #[inline]
    pub fn try_(&self, now: u64, key: Key, cost: u32) -> Answer {
        self.set_clock(now);
        decided(self.published.decision(&key, cost))
    }

    #[inline]
    pub fn peek(&self, now: u64, key: Key, cost: u32) -> Answer {
        self.set_clock(now);
        decided(self.published.peek(&key, cost))
    }

    /// The tokens that a key has.
    #[inline]
    pub fn available(&self, now: u64, key: Key) -> Answer {
        self.set_clock(now);
        (0, self.published.available(&key).into())
    }

    #[inline]
    pub fn reserve(&self, now: u64, key: Key, cost: u32, max_wait: u64) -> Answer {
        self.set_clock(now);
        let max_wait = Duration::from_nanos(max_wait);
        self.published
            .reserve(&key, cost, max_wait)
            .map_or((3, 0), |wait| (0, nanos(wait)))
    }

    #[inline]
    pub fn refund(&self, key: Key, cost: u32) -> Answer {
        known(self.published.refund_known(&key, cost))
    }

    #[inline]
    pub fn remove(&self, key: Key) -> Answer {
        known(self.published.remove(&key))
    }

    /// The debts of the first shard that settle after `now`, and how many they are. The published limiter has no such call: its ledger is filtered.
    #[inline]
    pub fn debts(&self, now: u64, debts: &mut Vec<(u64, u64)>) -> Answer {
        debts.clear();
        OneShard::new(self.published.store(), 0, None).each_debt(|hash, settles_at| {
            if settles_at > now {
                debts.push((hash, settles_at));
            }
        });
        (0, debts.len() as u64)
    }

    /// The number of keys that have a slot.
    #[inline]
    #[must_use]
    pub fn length(&self) -> Answer {
        (0, self.published.len() as u64)
    }
}

#[inline]
fn decided(decision: Decision) -> Answer {
    match decision {
        Decision::Acquired => (0, 0),
        Decision::Retry { after } => (1, nanos(after)),
        Decision::Impossible => (2, 0),
    }
}

/// A wait of the store fits 64 bits.
#[inline]
fn nanos(wait: Duration) -> u64 {
    wait.as_secs() * 1_000_000_000 + u64::from(wait.subsec_nanos())
}

#[inline]
const fn known(known: bool) -> Answer {
    (if known { 0 } else { 3 }, 0)
}
