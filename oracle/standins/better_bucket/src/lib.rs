//! Stand-in for the `better-bucket` package: the token bucket of document 01, section "The bucket", under the names
//! that the published store calls, with the wait of document 02, request 5 (a clock set back).
//!
//! With A tokens every P ns and a burst of C tokens, a token is P parts and each nanosecond brings A parts. A bucket is two
//! numbers: how many parts it is short of full, and the moment (in ns) at which that was so. Every answer is worked out from
//! them in whole parts, so nothing is rounded until tokens or nanoseconds are asked for.
//!
//! C × P is below 2^62 (see [`BucketConfig::new`]) and a shortfall is read as at most C × P + 2^62, so shortfalls, and their
//! sums with C × P, fit 64 bits. The products that do not are taken in 128.

use core::time::Duration;
use std::sync::atomic::{AtomicU64, Ordering::Relaxed};

/// The most tokens that come in a period, and the most that a bucket holds.
const MOST_TOKENS: u32 = 65_535;

/// The longest period, in nanoseconds.
const LONGEST_PERIOD: u128 = 1 << 46;

/// How many parts below empty a bucket is read to be at most.
const DEEPEST_DEBT: u64 = 1 << 62;

/// The rate, burst and first fill of a bucket.
#[derive(Debug, Clone, Copy, PartialEq, Eq)]
pub struct BucketConfig {
    capacity: u32,
    refill_amount: u32,
    /// In nanoseconds.
    refill_period: u64,
    initial: u32,
}

/// The rate, period or burst is outside the range of document 01.
#[derive(Debug, Clone, Copy, PartialEq, Eq)]
pub struct ConfigError;

impl BucketConfig {
    /// `refill_amount` tokens every `refill_period`, at most `capacity` of them, `initial` (cut to the capacity) at first.
    ///
    /// # Errors
    ///
    /// When the capacity or amount is not 1 to 65,535, or the period not 1 to 2^46 ns.
    pub fn new(
        capacity: u32,
        refill_amount: u32,
        refill_period: Duration,
        initial: u32,
    ) -> Result<Self, ConfigError> {
        let tokens = 1..=MOST_TOKENS;
        let period = refill_period.as_nanos();
        if !tokens.contains(&capacity)
            || !tokens.contains(&refill_amount)
            || !(1..=LONGEST_PERIOD).contains(&period)
        {
            return Err(ConfigError);
        }
        Ok(Self {
            capacity,
            refill_amount,
            refill_period: u64::try_from(period).map_err(|_| ConfigError)?,
            initial: initial.min(capacity),
        })
    }

    /// The burst, C.
    #[inline]
    #[must_use]
    pub const fn capacity(self) -> u32 {
        self.capacity
    }

    /// The amount, A.
    #[inline]
    #[must_use]
    pub const fn refill_amount(self) -> u32 {
        self.refill_amount
    }

    /// The period, P.
    #[inline]
    #[must_use]
    pub const fn refill_period(self) -> Duration {
        Duration::from_nanos(self.refill_period)
    }

    /// The parts in `tokens` tokens, of which there are at most C.
    fn parts(self, tokens: u32) -> u64 {
        u64::from(tokens) * self.refill_period
    }

    /// The largest shortfall that is ever read.
    fn most_shortfall(self) -> u64 {
        self.parts(self.capacity) + DEEPEST_DEBT
    }
}

/// The answer to a try.
#[non_exhaustive]
#[derive(Debug, Clone, Copy, PartialEq, Eq)]
pub enum Decision {
    /// The tokens were taken.
    Allowed,
    /// Nothing was taken.
    Denied {
        /// How long until the tokens are there; `Duration::MAX` if they never are.
        retry_after: Duration,
    },
}

/// One bucket. The two numbers are atomics so that a shared bucket can be changed, as in the published package. Here one
/// caller at a time is meant: a change is a load and a store, not one step.
#[derive(Debug)]
pub struct BucketCore {
    config: BucketConfig,
    /// Parts below full at `stamp`. It is read as at most [`BucketConfig::most_shortfall`].
    shortfall: AtomicU64,
    /// In nanoseconds.
    stamp: AtomicU64,
}

impl BucketCore {
    /// A fresh bucket, with the initial tokens as of `now`.
    #[must_use]
    pub fn new(config: BucketConfig, now: Duration) -> Self {
        Self::from_words(
            config,
            config.parts(config.capacity - config.initial),
            nanos(now),
        )
    }

    /// A bucket with this shortfall and stamp, of whatever size. For the harness.
    #[must_use]
    pub const fn from_words(config: BucketConfig, shortfall: u64, stamp: u64) -> Self {
        Self {
            config,
            shortfall: AtomicU64::new(shortfall),
            stamp: AtomicU64::new(stamp),
        }
    }

    /// The shortfall and stamp as they are stored. For the harness.
    #[must_use]
    pub fn words(&self) -> (u64, u64) {
        (self.shortfall.load(Relaxed), self.stamp.load(Relaxed))
    }

    /// The most tokens that the bucket holds.
    #[inline]
    #[must_use]
    pub const fn capacity(&self) -> u32 {
        self.config.capacity
    }

    /// The whole tokens in the bucket at `now`; none if it is below empty.
    #[must_use]
    pub fn available_at(&self, now: Duration) -> u32 {
        let held = self
            .config
            .parts(self.config.capacity)
            .saturating_sub(self.shortfall_at(now));
        u32::try_from(held / self.config.refill_period)
            .expect("a bucket holds at most its capacity")
    }

    /// How long after `now` a cost of `cost` can be met; `None` if never, because it is more than the bucket holds.
    #[must_use]
    pub fn time_until_at(&self, cost: u32, now: Duration) -> Option<Duration> {
        (cost <= self.config.capacity).then(|| self.wait(cost, self.shortfall_at(now), now))
    }

    /// Takes `cost` tokens if they are there at `now`.
    pub fn acquire_at(&self, cost: u32, now: Duration) -> Decision {
        match self.grant(cost, Duration::ZERO, now) {
            Ok(_) => Decision::Allowed,
            Err(retry_after) => Decision::Denied { retry_after },
        }
    }

    /// Takes `cost` tokens if their wait is at most `max_wait`, and gives the wait.
    pub fn reserve_at(&self, cost: u32, max_wait: Duration, now: Duration) -> Option<Duration> {
        self.grant(cost, max_wait, now).ok()
    }

    /// Takes as many of `tokens` tokens as there are at `now`, and gives their number.
    pub fn acquire_up_to_at(&self, tokens: u32, now: Duration) -> u32 {
        let taken = tokens.min(self.available_at(now));
        if taken > 0 {
            self.store(self.shortfall_at(now) + self.config.parts(taken), now);
        }
        taken
    }

    /// Takes `tokens` tokens whether or not they are there; the shortfall stops at the largest that is read.
    pub fn charge_at(&self, tokens: u128, now: Duration) {
        let parts = tokens.saturating_mul(u128::from(self.config.refill_period));
        let most = self.config.most_shortfall();
        let charged = u128::from(self.shortfall_at(now)).saturating_add(parts);
        self.store(
            u64::try_from(charged).map_or(most, |shortfall| shortfall.min(most)),
            now,
        );
    }

    /// Gives `cost` tokens back, at most up to full: the stored shortfall, as it is read, falls. The stamp stays.
    pub fn refund(&self, cost: u32) {
        let parts = u128::from(cost) * u128::from(self.config.refill_period);
        let parts = u64::try_from(parts).unwrap_or(u64::MAX);
        self.shortfall
            .store(self.stored().saturating_sub(parts), Relaxed);
    }

    /// Takes `cost` tokens if their wait is at most `max_wait`; the wait is given either way. A cost over C waits for ever.
    #[inline]
    fn grant(&self, cost: u32, max_wait: Duration, now: Duration) -> Result<Duration, Duration> {
        if cost > self.config.capacity {
            return Err(Duration::MAX);
        }
        let shortfall = self.shortfall_at(now);
        let wait = self.wait(cost, shortfall, now);
        if wait > max_wait {
            return Err(wait);
        }
        self.store(shortfall + self.config.parts(cost), now);
        Ok(wait)
    }

    /// The stored shortfall, as it is read.
    #[inline]
    fn stored(&self) -> u64 {
        self.shortfall
            .load(Relaxed)
            .min(self.config.most_shortfall())
    }

    /// The shortfall at `now`: what is stored, less A parts for each nanosecond since the stamp. Before the stamp nothing falls.
    #[inline]
    fn shortfall_at(&self, now: Duration) -> u64 {
        let elapsed = nanos(now).saturating_sub(self.stamp.load(Relaxed));
        let refilled = u128::from(elapsed) * u128::from(self.config.refill_amount);
        self.stored()
            .saturating_sub(u64::try_from(refilled).unwrap_or(u64::MAX))
    }

    /// The wait for a cost of at most C at this shortfall: the time that the missing parts take to come, rounded up. None
    /// come before the stamp: if `now` is before it, a wait above 0 is longer by the time up to it, held to 64 bits.
    #[inline]
    fn wait(&self, cost: u32, shortfall: u64, now: Duration) -> Duration {
        let missing = (shortfall + self.config.parts(cost))
            .saturating_sub(self.config.parts(self.config.capacity));
        if cost == 0 || missing == 0 {
            return Duration::ZERO;
        }
        let to_stamp = self.stamp.load(Relaxed).saturating_sub(nanos(now));
        let refill = missing.div_ceil(u64::from(self.config.refill_amount));
        Duration::from_nanos(refill.saturating_add(to_stamp))
    }

    /// Stores a shortfall that holds at `now`. A stamp after `now` stays.
    fn store(&self, shortfall: u64, now: Duration) {
        self.shortfall.store(shortfall, Relaxed);
        self.stamp
            .store(self.stamp.load(Relaxed).max(nanos(now)), Relaxed);
    }
}

/// The nanoseconds of a moment, held to 64 bits.
#[inline]
fn nanos(moment: Duration) -> u64 {
    u64::try_from(moment.as_nanos()).unwrap_or(u64::MAX)
}

#[cfg(test)]
mod tests;
