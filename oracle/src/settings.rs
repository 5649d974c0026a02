//! The settings record of document 01, section "Settings and memory". Any content can be given; [`crate::refusals`]
//! says what is refused.

use core::time::Duration;

use crate::eviction::{Eviction, WhenFull};

/// What a limiter is set up with.
#[derive(Debug, Clone, Copy, PartialEq, Eq)]
pub struct Settings {
    /// The rate that every key has; none for a closed limiter.
    pub rate: Option<Rate>,
    /// The most keys, over all shards.
    pub max_keys: u64,
    /// The shards that are asked for.
    pub shards: u64,
    /// The idle time in nanoseconds, if any.
    pub idle: Option<u64>,
    /// What happens when a shard and its ledger are full.
    pub when_full: WhenFull,
}

/// A rate, with the bucket's size and first fill.
#[derive(Debug, Clone, Copy, PartialEq, Eq)]
pub struct Rate {
    /// Tokens that come in a period.
    pub amount: u32,
    /// The period in nanoseconds.
    pub period: u64,
    /// The most tokens in a bucket; the amount if unset.
    pub burst: Option<u32>,
    /// The tokens in a fresh bucket, cut to the burst; the burst if unset.
    pub initial: Option<u32>,
}

impl Settings {
    /// The published eviction settings.
    pub(crate) fn eviction(&self) -> Eviction {
        let max_keys = usize::try_from(self.max_keys).unwrap_or(usize::MAX);
        let eviction = match self.idle {
            Some(idle) => Eviction::new(max_keys, Duration::from_nanos(idle)),
            None => Eviction::capacity(max_keys),
        };
        eviction.with_when_full(self.when_full)
    }
}
