//! The bucket. Its numbers are 128 bits wide here, so that nothing has to be split or held back.

use oracle::Rate;

use crate::branches::{Branch, Hits};

/// How far past empty a bucket can be, in parts.
const BELOW_EMPTY: u128 = 1 << 62;

/// How long something takes, from a moment on.
#[derive(Clone, Copy, PartialEq, Eq)]
pub struct Wait {
    /// The call's own moment.
    pub now: u64,
    pub nanos: u64,
}

impl Wait {
    /// No wait.
    pub const fn none(now: u64) -> Self {
        Self { now, nanos: 0 }
    }

    /// The moment at which it is over, held to 64 bits.
    pub const fn moment(self) -> u64 {
        self.now.saturating_add(self.nanos)
    }

    /// The shorter of two that start together.
    pub fn sooner(self, other: Self) -> Self {
        let nanos = self.nanos.min(other.nanos);
        Self { nanos, ..self }
    }

    /// The longer of two that start together.
    pub fn longer(self, other: Self) -> Self {
        self.at_least(other.nanos)
    }

    /// Made at least so long.
    pub fn at_least(self, nanos: u64) -> Self {
        let nanos = self.nanos.max(nanos);
        Self { nanos, ..self }
    }
}

/// What the rate says of every bucket: the amount A, the period P, the burst C and the initial tokens.
#[derive(Clone, Copy)]
pub struct BucketConfig {
    amount: u128,
    period: u128,
    capacity: u32,
    initial: u32,
}

impl BucketConfig {
    /// A burst that is not set is the amount; initial tokens that are not set are the burst, and they are never more.
    pub fn of(rate: &Rate) -> Self {
        let capacity = rate.burst.unwrap_or(rate.amount);
        Self {
            amount: rate.amount.into(),
            period: rate.period.into(),
            capacity,
            initial: rate.initial.unwrap_or(capacity).min(capacity),
        }
    }

    /// The most tokens that a bucket holds.
    pub const fn capacity(self) -> u32 {
        self.capacity
    }

    /// The parts of some tokens: a token is P parts.
    fn parts(self, tokens: impl Into<u128>) -> u128 {
        tokens.into() * self.period
    }

    /// The largest shortfall that is read or made.
    fn most(self) -> u128 {
        self.parts(self.capacity) + BELOW_EMPTY
    }

    /// The time in which `parts` come back, in nanoseconds, rounded up.
    fn time_for(self, parts: u128) -> u64 {
        word(parts.div_ceil(self.amount))
    }

    /// The time that an empty bucket takes to be full.
    pub fn time_to_full(self) -> u64 {
        self.time_for(self.parts(self.capacity))
    }

    /// The tokens that come back in `nanos`, rounded up.
    pub fn tokens_in(self, nanos: u64) -> u128 {
        (u128::from(nanos) * self.amount).div_ceil(self.period)
    }

    /// The time by which a refund moves a debt: that of a token, rounded down, for each.
    pub fn time_of(self, tokens: u32) -> u128 {
        self.period / self.amount * u128::from(tokens)
    }

    /// A stored shortfall as it is read.
    fn read(self, shortfall: u64) -> u128 {
        u128::from(shortfall).min(self.most())
    }

    /// The shortfall that is stored after a refund: the clock is not looked at.
    pub fn refunded(self, shortfall: u64, cost: u32) -> u64 {
        word(self.read(shortfall).saturating_sub(self.parts(cost)))
    }
}

/// A bucket as it stands at a moment.
#[derive(Clone, Copy)]
pub struct Bucket {
    config: BucketConfig,
    /// The parts below full.
    shortfall: u128,
    stamp: u64,
    now: u64,
}

impl Bucket {
    /// A new key's bucket, with the initial tokens.
    pub fn fresh(config: BucketConfig, now: u64) -> Self {
        let missing = config.capacity - config.initial;
        Self {
            config,
            shortfall: config.parts(missing),
            stamp: now,
            now,
        }
    }

    /// A stored bucket: A parts come back in each nanosecond since the stamp, and none before it.
    pub fn read(config: BucketConfig, [stored, stamp]: [u64; 2], now: u64) -> Self {
        let back = u128::from(now.saturating_sub(stamp)) * config.amount;
        Self {
            config,
            shortfall: config.read(stored).saturating_sub(back),
            stamp,
            now,
        }
    }

    /// Whether a stored shortfall is read as the largest, which it is over.
    pub fn is_cut(self, stored: u64) -> bool {
        u128::from(stored) > self.config.most()
    }

    /// The bucket of a slot.
    pub fn at(config: BucketConfig, [stored, stamp]: [u64; 2], now: u64, hits: &mut Hits) -> Self {
        let bucket = Self::read(config, [stored, stamp], now);
        let shortfall = bucket.shortfall;
        if bucket.is_cut(stored) {
            hits.hit(Branch::BucketReadCut);
        }
        if now < stamp {
            hits.hit(Branch::BucketLaterStamp);
            if shortfall > 0 {
                let full_at = u128::from(stamp) + shortfall.div_ceil(config.amount);
                let is_held = full_at > u128::from(u64::MAX);
                hits.either(is_held, (Branch::BucketGrownHeld, Branch::BucketGrown));
            }
        } else if stored > 0 && shortfall < u128::from(stored) {
            hits.either(shortfall == 0, (Branch::BucketFull, Branch::BucketPart));
        }
        bucket
    }

    /// What a slot keeps of it: shortfall and stamp.
    pub fn words(self) -> [u64; 2] {
        [word(self.shortfall), self.stamp]
    }

    /// Whether nothing is missing.
    pub const fn is_full(self) -> bool {
        self.shortfall == 0
    }

    /// Whether more than the whole burst is missing.
    pub fn is_below_empty(self) -> bool {
        self.shortfall > self.config.parts(self.config.capacity)
    }

    /// The whole tokens that are there.
    pub fn available(self) -> u32 {
        let parts = self.config.parts(self.config.capacity);
        let tokens = parts.saturating_sub(self.shortfall) / self.config.period;
        u32::try_from(tokens).expect("at most the burst")
    }

    /// The wait for a cost: until the shortfall leaves room for it. There is none for a cost of 0, nor for one that there is room for.
    /// Another is longer before the stamp, by the time up to it (02, request 5), and is held to 64 bits.
    pub fn wait(self, cost: u32) -> Wait {
        if cost == 0 {
            return Wait::none(self.now);
        }
        let (asked, full) = (
            self.config.parts(cost),
            self.config.parts(self.config.capacity),
        );
        let missing = (self.shortfall + asked).saturating_sub(full);
        if missing == 0 {
            return Wait::none(self.now);
        }
        let to_stamp = self.stamp.saturating_sub(self.now);
        Wait {
            now: self.now,
            nanos: self.config.time_for(missing).saturating_add(to_stamp),
        }
    }

    /// The wait until it is full.
    pub fn recovers_in(self) -> Wait {
        self.wait(self.config.capacity)
    }

    /// A grant: the cost is taken, and the stamp never goes back.
    pub fn granted(self, cost: u32) -> Self {
        Self {
            shortfall: self.shortfall + self.config.parts(cost),
            stamp: self.stamp.max(self.now),
            ..self
        }
    }

    /// The same with `tokens` more missing, and whether that had to be held to the largest shortfall.
    pub fn charged(self, tokens: u128) -> (Self, bool) {
        let (charged, most) = (
            self.shortfall + self.config.parts(tokens),
            self.config.most(),
        );
        let shortfall = charged.min(most);
        (Self { shortfall, ..self }, charged > most)
    }
}

/// A number that fits a word.
pub fn word(number: u128) -> u64 {
    u64::try_from(number).expect("01's numbers fit 64 bits")
}
