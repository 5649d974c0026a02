//! What a store is set up with.

use core::time::Duration;

use limiter_sys::{LimiterSettings, limiter_words};

use crate::{ClassTable, Refusal};

/// What a store is set up with. Any values can be given; [`Store::set_up`](crate::Store::set_up) refuses those that are out of range.
#[non_exhaustive]
#[derive(Debug, Clone, Copy, PartialEq, Eq, Hash)]
pub struct Settings {
    /// The rate that every key has. `None` is a closed limiter, which grants a cost of 0 alone.
    pub rate: Option<Rate>,
    /// The keys to make room for, 0 to 65,536; each shard has room for an equal share, rounded up, at least 1.
    pub max_keys: u64,
    /// The shards asked for: 0 to 64. The number is first raised to `max_keys` / 16,384, rounded up, and at least 1, and then rounded up to a power of two.
    /// bindings/README.md ("Shards") says how many to ask for, and how many keys.
    pub shards: u64,
    /// A key whose bucket is full and that was idle for this long may be forgotten; `None`: never for that.
    pub idle: Option<Duration>,
    /// What happens to a new key when its shard finds no room for it and the debts.
    pub when_full: WhenFull,
}

/// A rate, with the bucket's size and first fill.
#[non_exhaustive]
#[derive(Debug, Clone, Copy, PartialEq, Eq, Hash)]
pub struct Rate {
    /// Tokens that come back in a period: 1 to 65,535.
    pub amount: u32,
    /// The period: 1 to 2^46 ns (19 hours).
    pub period: Duration,
    /// The most tokens in a bucket, 1 to 65,535; `None`: the amount.
    pub burst: Option<u32>,
    /// The tokens in a new bucket, cut to the burst; `None`: the burst.
    pub initial: Option<u32>,
}

/// What happens to a new key when its shard finds no room for it and the debts.
#[non_exhaustive]
#[derive(Debug, Clone, Copy, PartialEq, Eq, Hash, Default)]
pub enum WhenFull {
    /// It is turned away, and told when room is expected; no debt is forgotten.
    #[default]
    RefuseNew,
    /// Of the debts looked at the one that settles soonest is forgotten; its key comes back with a fresh bucket.
    ForgetDebt,
}

impl Rate {
    /// `amount` tokens every `period`.
    #[must_use]
    pub const fn new(amount: u32, period: Duration) -> Self {
        Self {
            amount,
            period,
            burst: None,
            initial: None,
        }
    }

    /// `amount` tokens every second.
    #[must_use]
    pub const fn per_second(amount: u32) -> Self {
        Self::new(amount, Duration::from_secs(1))
    }

    /// With another burst than the amount.
    #[must_use]
    pub const fn burst(mut self, burst: u32) -> Self {
        self.burst = Some(burst);
        self
    }

    /// With another first fill than the burst.
    #[must_use]
    pub const fn initial(mut self, initial: u32) -> Self {
        self.initial = Some(initial);
        self
    }
}

impl Settings {
    /// A store of one shard for up to `max_keys` keys with this rate. bindings/README.md ("Shards") says when to ask for more
    /// [`shards`](Settings::shards()).
    #[must_use]
    pub const fn new(rate: Rate, max_keys: u64) -> Self {
        Self {
            rate: Some(rate),
            max_keys,
            shards: 1,
            idle: None,
            when_full: WhenFull::RefuseNew,
        }
    }

    /// A store that grants a cost of 0 alone.
    #[must_use]
    pub const fn closed(max_keys: u64) -> Self {
        Self {
            rate: None,
            ..Self::new(Rate::per_second(1), max_keys)
        }
    }

    /// With this number of shards.
    #[must_use]
    pub const fn shards(mut self, shards: u64) -> Self {
        self.shards = shards;
        self
    }

    /// With an idle time.
    #[must_use]
    pub const fn idle(mut self, idle: Duration) -> Self {
        self.idle = Some(idle);
        self
    }

    /// With another rule for a full shard.
    #[must_use]
    pub const fn when_full(mut self, when_full: WhenFull) -> Self {
        self.when_full = when_full;
        self
    }

    /// How many words a store with these settings takes, without classes. It follows from the sizes alone; the rate is not looked at.
    ///
    /// # Errors
    ///
    /// [`Refusal::Sizes`]: more than 65,536 keys or 64 shards.
    pub fn words(&self) -> Result<usize, Refusal> {
        Self::lendable(limiter_words(self.raw()))
    }

    /// The words that the library asks for, which are 0 for sizes that are refused.
    pub(crate) fn lendable(words: u64) -> Result<usize, Refusal> {
        match usize::try_from(words) {
            Ok(0) | Err(_) => Err(Refusal::Sizes),
            Ok(words) => Ok(words),
        }
    }

    /// The settings as twelve numbers, in the order of the C struct, whose thirteenth, the number of classes, a table has. Keep them with the words of a store:
    /// words mean what they should only under the settings that they had. Equal settings have equal numbers, and so have settings that no store can tell apart.
    #[must_use]
    pub fn numbers(&self) -> [u64; 12] {
        let raw = self.raw();
        let flags_and_tokens = [
            raw.closed,
            raw.amount,
            raw.has_burst,
            raw.burst,
            raw.has_initial,
            raw.initial,
            raw.has_idle,
            raw.forget_debt,
        ];
        let mut numbers = [
            raw.period,
            raw.max_keys,
            raw.shards,
            raw.idle,
            0,
            0,
            0,
            0,
            0,
            0,
            0,
            0,
        ];
        for (place, number) in numbers[4..].iter_mut().zip(flags_and_tokens) {
            *place = number.into();
        }
        numbers
    }

    /// The record that the library takes. A time past 64 bits of nanoseconds is held to them; such a period is refused anyway, and such
    /// an idle time never passes.
    pub(crate) fn raw(&self) -> LimiterSettings {
        let rate = self.rate.unwrap_or(Rate::new(0, Duration::ZERO));
        LimiterSettings {
            period: nanos(rate.period),
            max_keys: self.max_keys,
            shards: self.shards,
            idle: self.idle.map_or(0, nanos),
            closed: u32::from(self.rate.is_none()),
            amount: rate.amount,
            has_burst: u32::from(rate.burst.is_some()),
            burst: rate.burst.unwrap_or(0),
            has_initial: u32::from(rate.initial.is_some()),
            initial: rate.initial.unwrap_or(0),
            has_idle: u32::from(self.idle.is_some()),
            forget_debt: u32::from(self.when_full == WhenFull::ForgetDebt),
            classes: 0,
        }
    }

    /// The same for a store with these classes.
    pub(crate) fn raw_with(&self, classes: &ClassTable) -> LimiterSettings {
        LimiterSettings {
            classes: u32::try_from(classes.len()).unwrap_or(u32::MAX),
            ..self.raw()
        }
    }
}

/// The nanoseconds of a time, held to 64 bits.
pub(crate) fn nanos(time: Duration) -> u64 {
    u64::try_from(time.as_nanos()).unwrap_or(u64::MAX)
}
