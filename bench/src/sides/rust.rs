//! The published Rust.

use core::time::Duration;

use published::{Answer, Eviction, Key, Limiter, Rate, WhenFull};

use super::Store;
use crate::scenario::{MAX_WAIT, Setup};

/// The published limiter, and what it was made with.
pub struct Rust {
    setup: Setup,
    pub limiter: Limiter,
    debts: Vec<(u64, u64)>,
}

/// A limiter with these settings.
fn limiter(setup: &Setup) -> Limiter {
    let eviction = match setup.idle {
        Some(idle) => Eviction::new(setup.max_keys, Duration::from_nanos(idle)),
        None => Eviction::capacity(setup.max_keys),
    };
    let when_full = if setup.forget_debt {
        WhenFull::ForgetDebt
    } else {
        WhenFull::RefuseNew
    };
    let rate = Rate {
        amount: setup.amount,
        period: 1_000_000_000,
        burst: setup.burst,
        initial: setup.burst,
    };
    Limiter::new(rate, eviction.with_when_full(when_full), setup.shards)
}

impl Store for Rust {
    fn fresh(setup: &Setup) -> Self {
        Self {
            setup: *setup,
            limiter: limiter(setup),
            debts: Vec::new(),
        }
    }

    /// A new limiter in place of the old one.
    #[inline]
    fn set_up(&mut self) -> Answer {
        self.limiter = limiter(&self.setup);
        (0, 0)
    }

    #[inline]
    fn try_(&mut self, now: u64, key: Key, cost: u32) -> Answer {
        self.limiter.try_(now, key, cost)
    }

    /// It has no classes.
    #[inline]
    fn through(&mut self, now: u64, key: Key, cost: u32) -> Answer {
        self.limiter.try_(now, key, cost)
    }

    #[inline]
    fn reserve(&mut self, now: u64, key: Key, cost: u32) -> Answer {
        self.limiter.reserve(now, key, cost, MAX_WAIT)
    }

    #[inline]
    fn peek(&mut self, now: u64, key: Key, cost: u32) -> Answer {
        self.limiter.peek(now, key, cost)
    }

    #[inline]
    fn available(&mut self, now: u64, key: Key) -> Answer {
        self.limiter.available(now, key)
    }

    #[inline]
    fn refund(&mut self, key: Key, cost: u32) -> Answer {
        self.limiter.refund(key, cost)
    }

    #[inline]
    fn remove(&mut self, key: Key) -> Answer {
        self.limiter.remove(key)
    }

    #[inline]
    fn length(&mut self) -> Answer {
        self.limiter.length()
    }

    /// Its ledger, filtered.
    #[inline]
    fn debts(&mut self, now: u64) -> Answer {
        self.limiter.debts(now, &mut self.debts)
    }
}
